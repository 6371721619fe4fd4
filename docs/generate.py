#!/usr/bin/env python3
"""Makes docs/proved.md and docs/definitions.md of the sources' own comments and clauses.

  python3 docs/generate.py          writes the two pages
  python3 docs/generate.py --check  writes nothing; exit status 1 where a page is not what it would write, where
                                    docs/believe.md names a definition or a call that is not there, where code of
                                    docs/library.md or docs/c.md is not in the sources that it is of, where a link of
                                    a page leads nowhere, or where a crate stands on one of a higher floor of
                                    docs/architecture.md

proved.md has, for each crate, what its root file exports: a call's comment, its signature and its clauses as they
stand in src/; of a type what a contract sees of it; of a call that is a law the definition that it is. definitions.md
has each public definition of specs/ with the comment above it. The crates come in the order of the floors.
"""
import os
import re
import sys
import textwrap
from dataclasses import dataclass, field

TOP = os.path.join(os.path.dirname(os.path.abspath(__file__)), "..")
IMPORT = re.compile(r"^\s*ghost use Rattle\.(ssz_\w+)\.specs\.([\w.]+)\.(?:\{(.*)\}|([^.{};]+));", re.M)
FUNCTION = re.compile(r'^(?P<inside>    )?(?P<public>pub )?(?:const |unsafe |extern "C" )*fn (?P<name>\w+)')
OWNER = re.compile(r"^(?:unsafe )?impl\b(?:<[^{]*?>)? (?:(?P<trait>[\w:]+(?:<.*?>)?) for )?(?P<type>\w+)(?P<rest>.*?) \{$")
TYPE = re.compile(r"^pub (?P<kind>struct|enum|trait|union|const|type) (?P<name>\w+)")
GHOST = re.compile(r"^    ghost (?!use\b|coded\b|inverse\b)(?P<name>\w+) ?[:=] ?\{")
CLAUSE = re.compile(r"\s*(?:requires|ensures)\b\*?\s*\w*\s*\{")
DEFINED = re.compile(r"^(?P<deep> *)(?:abbrev |unfoldable )?pub (?:record |data )?(?P<name>[^\s:(]+)(?=[\s(:])")
CODE = [("docs/library.md", "rust", "crates/library_tour/src", ".rt"), ("docs/c.md", "c", "examples/c", ".c"),
        ("docs/c.md", "python", "examples/python", ".py"), ("docs/c.md", "rust", "examples/rust", ".rs")]
STANDARD = "https://github.com/ethereum/consensus-specs/blob/v1.4.0/ssz"


@dataclass
class Item:
    """A public call, a type, or what a type gives to a trait."""
    name: str
    comment: str
    source: str = ""
    clauses: list = field(default_factory=list)


@dataclass
class Definition:
    """A definition of specs/; `section` is the comment that stands above several."""
    name: str
    comment: str
    source: str
    section: str


def read(path):
    with open(f"{TOP}/{path}") as file:
        return file.read()


def files(top, end):
    """The files below a folder, by their paths."""
    found = []
    for folder, _, names in os.walk(f"{TOP}/{top}"):
        found += [os.path.relpath(f"{folder}/{name}", TOP) for name in names if name.endswith(end)]
    return sorted(found)


# Rust

def without_comments(text):
    """The text with a space for each character of a comment."""
    return re.sub(r"//[^\n]*", lambda found: " " * len(found[0]), text)


def closing(text, start):
    """Behind the bracket that closes the one at `start`."""
    depth, open_one = 0, text[start]
    close = {"(": ")", "{": "}", "<": ">"}[open_one]
    for end in range(start, len(text)):
        if text[end] == open_one:
            depth += 1
        elif text[end] == close and text[end - 1:end + 1] != "->":
            depth -= 1
            if depth == 0:
                return end + 1
    return len(text)


def contract(text, bare, start):
    """The end of a function's signature and clauses, and the text of each clause."""
    place = re.compile(r"fn \w+").search(bare, start).end()
    if bare[place] == "<":
        place = closing(bare, place)
    place = closing(bare, place)
    end = place + re.match(r"(?:\[[^{}]*\]|[^{;[])*?(?=\s*(?:[{;]|\b(?:requires|ensures)\b))", bare[place:]).end()
    clauses = []
    while found := CLAUSE.match(bare, end):
        end = closing(bare, found.end() - 1)
        clauses.append(text[found.end():end - 1])
    return end, clauses


def comment_above(lines, number):
    """The comment lines above a line, without what stands between them and it."""
    while number and lines[number - 1].lstrip().startswith("#["):
        number -= 1
    above = []
    while number and re.match(r"\s*///? ?", lines[number - 1]):
        number -= 1
        above.insert(0, re.sub(r"^\s*///? ?", "", lines[number]))
    return first_paragraph(above)


def first_paragraph(lines):
    return " ".join("\n".join(lines).split("\n\n")[0].split())


def dedented(text):
    depth = len(text) - len(text.lstrip(" "))
    return "\n".join(line[min(depth, len(line) - len(line.lstrip(" "))):] for line in text.rstrip().split("\n"))


def ghosts(text, bare, lines, starts, number):
    """The ghost members behind a type's or an impl's first line: what a contract sees."""
    shown, clauses = [], []
    for at in range(number + 1, len(lines)):
        if lines[at][:1] not in ("", " "):
            break
        found = GHOST.match(lines[at])
        if found:
            end = closing(bare, starts[at] + found.end() - 1)
            above = at
            while lines[above - 1].lstrip().startswith("//"):
                above -= 1
            shown.append(text[starts[above]:end].rstrip() + ";")
            clauses.append(text[starts[at] + found.end():end - 1])
    return "\n".join(shown), clauses


def items(text, names):
    """What one file of src/ has of what the root file exports."""
    bare, lines = without_comments(text), text.split("\n")
    starts = [0]
    for line in lines:
        starts.append(starts[-1] + len(line) + 1)
    owner, every = "", False
    for number, line in enumerate(lines):
        function, made, kind = FUNCTION.match(line), OWNER.match(line), TYPE.match(line)
        if line[:1] not in ("", " ", "}", ")", "#", "/"):
            owner, every = (made or kind)["type" if made else "name"] if made or kind else "", False
        if made and made["trait"]:
            every = True
            shown, clauses = ghosts(text, bare, lines, starts, number)
            if owner in names and shown and not made["trait"].startswith("From<Alloc"):
                what = ": what a contract sees" if made["trait"] == "Model" else f" as `{made['trait']}`"
                yield Item(f"`{owner}`{what}", comment_above(lines, number), dedented(shown), clauses)
        elif kind and owner in names:
            every = kind["kind"] == "trait"
            shown, clauses = ghosts(text, bare, lines, starts, number)
            shown = line if kind["kind"] in ("const", "type") else shown
            yield Item(f"`{owner}`", comment_above(lines, number), dedented(shown), clauses)
        elif function and (owner in names and (function["public"] or every) if function["inside"]
                           else function["public"] and function["name"] in names):
            end, clauses = contract(text, bare, starts[number])
            if clauses or not every or not made_by_impl(text, starts[number]):
                name = f"{owner}::{function['name']}" if function["inside"] else function["name"]
                yield Item(f"`{name}`", comment_above(lines, number), dedented(text[starts[number]:end]), clauses)


def made_by_impl(text, start):
    """Whether the last line at the margin before a function begins an impl: a trait has its contract."""
    return re.findall(r"^(?:pub |unsafe )?(?:trait|impl)\b", text[:start], re.M)[-1:] == ["impl"]


def exported(root):
    """The names that a crate's root file exports, those that it declares itself among them."""
    names = set()
    for listed in re.findall(r"^pub use (?!ssz_)[\w:]*?(?:\{([^}]*)\}|(\w+));", root, re.M):
        names.update(re.findall(r"(?:\w+ as )?(\w+)", listed[0] or listed[1]))
    names.update(re.findall(r'^pub (?:extern "C" )?(?:fn|struct|enum|trait|const|type) (\w+)', root, re.M))
    return names


def calls(crate):
    """What a crate exports, and where its clauses' names come from: name to crate and file."""
    names = exported(without_comments(read(f"crates/{crate}/src/lib.rt")))
    for path in files(f"crates/{crate}/src", ".rt"):
        text = read(path)
        origin = {}
        for low, module, many, single in IMPORT.findall(text):
            low, module = home(low, module)
            for one in () if module.startswith("declared") else (many or single).split(","):
                name, _, other = one.strip().partition(" as ")
                origin[(other or name).strip("◌")] = (low, module, name)
        for item in items(text, names):
            yield item, origin


def home(crate, module):
    """Where a module of definitions stands that a crate may pass on: the crate, and its name there."""
    lines = read(f"crates/{crate}/specs/Lib.antt") if os.path.exists(f"{TOP}/crates/{crate}/specs/Lib.antt") else ""
    for low, passed in re.findall(r"^pub use Rattle\.(\w+)\.specs\.([\w.]+)$", lines, re.M):
        name = passed.rpartition(".")[2]
        if f"{module}.".startswith(f"{name}."):
            return low, passed + module.removeprefix(name)
    return crate, module


def words(clause):
    """The words of a clause: no fields, no names of a record's members."""
    clause = re.sub(r"(?<=[{;])\s*\w+ =(?!=)", " ", without_comments(clause))
    return set(re.findall(r"(?<![^\s(){},;])[^\s(){},;.]+", clause))


# specs/

def definitions(text):
    """The public definitions of a file of specs/, after its first comment, which comes as one without a name."""
    lines, comment, section, mutual, begun = text.split("\n"), [], "", None, False
    for number, line in enumerate(lines):
        found = DEFINED.match(line)
        said = re.match(r" *-- ?(.*)", line)
        if said:
            comment.append(said[1])
            continue
        if not begun and comment and not found:
            begun = True
            yield Definition("", " ".join(comment), "", "")
            comment = []
        elif not line and comment:
            section, comment = " ".join(comment), []
        if re.match(r" *(?:abbrev |unfoldable )?mutual\b", line):
            mutual = len(line) - len(line.lstrip())
        elif line and not line.startswith(" ") and not line.startswith(")"):
            mutual = None
        if found and (top_level(lines, number, len(found["deep"])) or mutual is not None and len(found["deep"]) == mutual + 2):
            yield Definition(found["name"], " ".join(comment), block(lines, number), section)
        if line:
            comment = []


def top_level(lines, number, deep):
    """Whether what encloses a line are modules alone."""
    for line in reversed(lines[:number]):
        here = len(line) - len(line.lstrip())
        if line.strip() and here < deep:
            if not re.match(r" *module\b", line):
                return False
            deep = here
    return deep == 0


def block(lines, number):
    """A definition with its equations: to the next blank line."""
    end = number
    while end < len(lines) and lines[end].strip():
        end += 1
    return dedented("\n".join(lines[number:end]))


# The pages

def floors():
    """The floors of architecture.md: the name of each and its crates, from the lowest up."""
    found = []
    for line in read("docs/architecture.md").split("\n"):
        cells = [cell.strip() for cell in line.strip("|").split("|")]
        if re.match(r"\| *\d+ *\|", line):
            found.append((cells[1], re.findall(r"`(\w+)`", cells[2])))
    return found


def libraries():
    """The crates with a contract to show, floor by floor: the name of the floor and its crates. The last floor, of rows
    and tests, has none."""
    for floor, crates in floors()[:-1]:
        shown = [crate for crate in crates if os.path.exists(f"{TOP}/crates/{crate}/src/lib.rt")]
        if shown:
            yield floor, shown


def head(crate):
    """What a crate's root file says first."""
    return first_paragraph(re.findall(r"^//! ?(.*)$", read(f"crates/{crate}/src/lib.rt"), re.M))


def laws(item, origin, known):
    """Of a call whose clauses are laws, names of definitions alone: these, as they stand in specs/, with the records
    of the same file that they are of."""
    shown = []
    for clause in item.clauses if " fn " in f" {item.source}" else ():
        name = origin.get(clause.strip().strip("◌"))
        if name in known:
            beside = [(*name[:2], word) for word in re.findall(r"[^\s(){},;]+", known[name].source)]
            records = [one for one in beside if one in known and known[one].source.startswith("pub record")]
            shown += [one for one in [*records, name] if one not in shown]
    return [known[one] for one in shown]


def contents(shown):
    """Links to the crates of a page, floor by floor."""
    lines = [""]
    for floor, crates in libraries():
        links = ", ".join(f"[`{crate}`](#{crate})" for crate in crates if shown(crate))
        lines += wrapped(f"- {floor}: {links}", "  ")
    return [*lines, ""]


def proved(known):
    page = ["# What is proved: the clauses", "",
            "Made by `python3 docs/generate.py` of the sources; [believe.md](believe.md) says in words what matters most.",
            "For each crate the calls that it exports, each with the comment, the signature and the clauses as they stand in its",
            "`src/`; of a type, what a contract sees of it; of a law, the definition that it is. The names in a clause are in",
            "[definitions.md](definitions.md). Left out: that a fault is made of a want of memory by `from`.",
            *contents(lambda crate: True)]
    for floor, crates in libraries():
        page += [f"## {floor}", ""]
        for crate in crates:
            page += [f"### `{crate}`", "", *wrapped(escaped(head(crate))), ""]
            for item, origin in calls(crate):
                page += [f"#### {item.name}", ""] + ([*wrapped(escaped(item.comment)), ""] if item.comment else [])
                shown = [item.source] if item.source else []
                shown += [(f"-- {one.comment}\n" if one.comment else "") + one.source for one in laws(item, origin, known)]
                if shown:
                    page += ["```rust"] + "\n\n".join(shown).split("\n") + ["```", ""]
    return "\n".join(page).rstrip() + "\n"


def cited():
    """The definitions that public clauses cite."""
    found = set()
    for _, crates in libraries():
        for crate in crates:
            for item, origin in calls(crate):
                for clause in item.clauses:
                    found |= {origin[word] for word in words(clause) & set(origin)}
    return found


def all_definitions():
    """Each definition by its crate, its file and its name, the first comment of a file with an empty name."""
    found = {}
    for _, crates in libraries():
        for crate in crates:
            for path in files(f"crates/{crate}/specs", ".antt"):
                module = os.path.basename(path).removesuffix(".antt")
                if module != "Lib":
                    for one in definitions(read(path)):
                        found.setdefault((crate, module, one.name), one)
    return found


def with_links(text):
    """The text with a link to the page of the standard that it names."""
    return re.sub(r"(?<![\w/-])((?:simple-serialize|merkle-proofs)\.md)", rf"[\1]({STANDARD}/\1)", text)


def escaped(text):
    """The text with its marks kept from being read as markdown's, but in code."""
    parts = re.split(r"(`[^`]*`)", text)
    return "".join(part if part.startswith("`") else re.sub(r"([_*<\[])", r"\\\1", part) for part in parts)


def wrapped(text, behind=""):
    """The text in lines; those after the first begin with `behind`."""
    return textwrap.wrap(text, 118, subsequent_indent=behind, break_long_words=False, break_on_hyphens=False)


def page_of_definitions(known, used):
    page = ["# Definitions", "",
            "Made by `python3 docs/generate.py` of the sources; [believe.md](believe.md) says which of them a reader must believe.",
            "For each crate the public definitions of its `specs/`, file by file, each with the comment that stands above it. Those in",
            "**bold** are cited by a clause of a public call; the others are what these are made of.",
            *contents(lambda crate: any(low == crate for low, _, _ in known))]
    for floor, crates in libraries():
        page += [f"## {floor}", ""]
        for crate in crates:
            modules = sorted({module for low, module, _ in known if low == crate})
            page += [f"### `{crate}`", ""] if modules else []
            for module in modules:
                page += of_module(crate, module, known, used)
    return "\n".join(page).rstrip() + "\n"


def of_module(crate, module, known, used):
    """The part of the page that one file has."""
    here = [one for (low, at, _), one in known.items() if (low, at) == (crate, module)]
    page, section, plain = [f"#### [{module}](../crates/{crate}/specs/{module}.antt)", ""], "", []
    for one in here:
        name = f"**`{one.name}`**" if (crate, module, one.name) in used else f"`{one.name}`"
        if not one.name:
            page += [*wrapped(with_links(escaped(one.comment))), ""]
            continue
        if one.section != section:
            section = one.section
            page += ["" if page[-1] else None, *wrapped(escaped(section)), ""]
        if one.comment:
            page += wrapped(f"- {name}: {escaped(one.comment)}", "  ")
        else:
            plain.append(name)
    page += [""] if page[-1] else []
    page = [line for line in page if line is not None]
    return page + ([*wrapped(f"Besides: {', '.join(plain)}"), ""] if plain else [])


# What --check looks at: for each check what is wrong, or nothing

def check_pages(pages):
    for path, text in pages.items():
        yield "" if read(path) == text else f"{path} is not fresh: run python3 docs/generate.py"


def check_floors():
    """Each crate of crates.txt has a floor, and stands on none of a higher one."""
    places = {crate: number for number, (_, crates) in enumerate(floors()) for crate in crates}
    for line in re.findall(r"^[^#\n].*", read("crates.txt"), re.M):
        crate, uses = line.partition(":")[0].split()[0], line.partition(":")[2].split()
        wrong = [low for low in uses if places.get(low, 0) > places.get(crate, len(places))]
        if crate not in places:
            wrong = ["no floor of docs/architecture.md"]
        yield f"{crate} stands on {', '.join(wrong)}: a higher floor of docs/architecture.md" if wrong else ""


def check_believe(known):
    """Each definition and each call that docs/believe.md names is there."""
    text = read("docs/believe.md")
    for crate, module, names in re.findall(r"`(\w+)/specs/(\w+)`: ((?:`[^`]+`(?:, )?)+)", text):
        for name in re.findall(r"`([^`]+)`", names):
            there = (crate, module, name) in known
            yield "" if there else f"docs/believe.md: no definition {name} in crates/{crate}/specs/{module}.antt"
    for crate, name in re.findall(r"`(ssz_\w+)::([\w:]+)`", text):
        there = f"`{name}`" in {item.name for item, _ in calls(crate)}
        yield "" if there else f"docs/believe.md: no call {name} in {crate}"


def check_code():
    """Each piece of code that a page shows, as far as a blank line, stands in the file that the page is about."""
    for page, language, folder, end in CODE:
        sources = [read(path) for path in sorted(files(folder, end))]
        for block in re.findall(rf"^```{language}\n(.*?)\n```$", read(page), re.M | re.S):
            for shown in block.split("\n\n"):
                there = any(shown + "\n" in source for source in sources)
                yield "" if there else f"{page}: not in {folder}: {shown.splitlines()[0]}"


def check_links():
    """Each link of a page of the repository leads to a file that is there, and to a heading that it has."""
    pages = [path for folder in ("docs", "examples", "bench", "hostile", "rows") for path in files(folder, ".md")]
    for page in ["README.md", *pages]:
        for link in re.findall(r"\]\(([^)\s:]+)\)", without_code(read(page))):
            path, _, heading = link.partition("#")
            target = os.path.normpath(os.path.join(os.path.dirname(page), path)) if path else page
            there = os.path.exists(f"{TOP}/{target}") and (not heading or heading in headings(target))
            yield "" if there else f"{page}: {link} leads nowhere"


def without_code(text):
    return re.sub(r"^```.*?^```", "", text, flags=re.S | re.M)


def headings(page):
    """The names by which links lead to the headings of a page."""
    seen, found = {}, set()
    for line in re.findall(r"^#+ (.*)", without_code(read(page)), re.M):
        plain = re.sub(r"\[([^\]]*)\]\([^)]*\)", r"\1", line).lower()
        name = re.sub(r"[^\w\- ]", "", plain).replace(" ", "-")
        found.add(name if name not in seen else f"{name}-{seen[name]}")
        seen[name] = seen.get(name, 0) + 1
    return found


def main(words):
    if words not in ([], ["--check"]):
        print(__doc__)
        return 0 if words in (["-h"], ["--help"]) else 2
    known = all_definitions()
    pages = {"docs/proved.md": proved(known), "docs/definitions.md": page_of_definitions(known, cited())}
    if words == ["--check"]:
        checks = [*check_pages(pages), *check_floors(), *check_believe(known), *check_code(), *check_links()]
        wrong = [one for one in checks if one]
        print("\n".join(wrong + [f"{len(checks)} checks, {len(wrong)} faults"]))
        return 1 if wrong else 0
    for path, text in pages.items():
        with open(f"{TOP}/{path}", "w") as file:
            file.write(text)
    return 0


if __name__ == "__main__":
    sys.exit(main(sys.argv[1:]))
