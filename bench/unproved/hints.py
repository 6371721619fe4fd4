"""The hints on inlining that Rattle sources give functions, by the names that functions have in a module of LLVM."""
import collections
import glob
import os
import re

FN = collections.namedtuple("FN", "crate module context kind name hint")

BLANKED = re.compile(r'//[^\n]*|/\*.*?\*/|r#*"(?:[^"]|"(?!#))*"#*|b?"(?:\\.|[^"\\])*"|b?\'(?:\\[^\']*|[^\\\'\n])\'', re.S)
TOKEN = re.compile(r"[{};]|\bfn\s+(\w+)")


def blanked(text):
    return BLANKED.sub(lambda it: re.sub(r"[^\n]", " ", it[0]) if it[0][0] == "/" else '""' if '"' in it[0] else "' '", text)


def hint_of(attributes):
    found = re.findall(r"#\[\s*(inline(?:\(\w+\))?|cold)\s*\]", attributes)
    words = []
    for it in found:
        words.append({"inline": "inlinehint", "inline(always)": "alwaysinline", "inline(never)": "noinline", "cold": "cold"}[it])
    return " ".join(sorted(set(words)))


def functions(crate, root):
    """Each function of a crate's sources, with its module, the header of its impl or trait, and its hint."""
    found = []
    for file in sorted(glob.glob(f"{root}/**/*.rt", recursive=True)):
        path = os.path.relpath(file, root)[:-3].split("/")
        if path[-1] in ("mod", "lib", "main"):
            path.pop()
        module = [crate, *path]
        with open(file, encoding="utf-8") as it:
            text = blanked(it.read())
        stack, start = [], 0
        for token in TOKEN.finditer(text):
            word = token[0]
            if word == "{":
                header = text[start : token.start()]
                clean = re.sub(r"#!?\[[^\]]*\]", " ", header)
                kind, name = "other", ""
                if one := re.search(r"\bmod\s+(\w+)\s*$", clean):
                    kind, name = "mod", one[1]
                elif one := re.search(r"\bmacro_rules!\s*(\w+)", clean):
                    kind, name = "macro", one[1]
                elif re.match(r"\s*(unsafe\s+|ghost\s+)*impl\b", clean):
                    kind, name = "impl", " ".join(clean.split())
                elif one := re.match(r"\s*(?:pub(?:\([^)]*\))?\s+|unsafe\s+|ghost\s+)*trait\s+(\w+)", clean):
                    kind, name = "trait", one[1]
                stack.append((kind, name))
                start = token.end()
            elif word == "}":
                if stack:
                    stack.pop()
                start = token.end()
            elif word == ";":
                # (not one between the brackets of an array's type)
                if text[start : token.start()].count("[") == text[start : token.start()].count("]"):
                    start = token.end()
            else:
                inside = [*module, *(name for kind, name in stack if kind == "mod")]
                context = next(((kind, name) for kind, name in reversed(stack) if kind in ("impl", "trait")), ("", ""))
                kind = "macro" if any(kind == "macro" for kind, _ in stack) else context[0]
                hint = hint_of(text[start : token.start()])
                found.append(FN(crate, "::".join(inside), context[1], kind, token[1], hint))
    return found


def parts_of(symbol):
    """The parts of a name between ::, the last part of which may be the sum of its types."""
    name = re.sub(r"::<.*$", "", symbol)
    return name.split("::")


class Hints:
    def __init__(self, top, kit):
        self.by_place, self.by_name, self.in_macros, self.roots = {}, {}, {}, {}
        self.missing = collections.Counter()
        for at in (f"{kit}/rattle/*/src", f"{kit}/rattle/examples/check/src", f"{top}/crates/*/src"):
            for root in glob.glob(at):
                self.roots[os.path.basename(os.path.dirname(root))] = root
        self.read, self.modules, self.unclear = set(), set(), collections.Counter()

    def crate(self, name):
        if name in self.read or name not in self.roots:
            return
        self.read.add(name)
        for one in functions(name, self.roots[name]):
            parts = one.module.split("::")
            self.modules.update("::".join(parts[:i]) for i in range(1, len(parts) + 1))
            self.by_place.setdefault((one.module, one.name), []).append(one)
            self.by_name.setdefault((one.crate, one.name), []).append(one)
            if one.kind == "macro":
                self.in_macros.setdefault((one.crate, one.name), []).append(one)

    def of(self, symbol):
        """The hint of a function, "" where there is none."""
        parts = parts_of(symbol)
        if len(parts) < 2 or parts[0] not in self.roots:
            return ""
        self.crate(parts[0])
        # closures and glue
        if "fn" in parts[:-1] or any("++" in it for it in parts):
            return ""
        for cut in range(len(parts) - 1, 0, -1):
            module = "::".join(parts[:cut])
            if module in self.modules:
                break
        else:
            return ""
        rest, name = parts[cut:-1], parts[-1]
        if len(rest) > 1:
            return ""
        found = self.by_place.get((module, name), [])
        if rest:
            found = [it for it in found if it.kind in ("impl", "trait", "macro")]
        else:
            # a module may have the name of a type, as int::u64
            own = [it for it in found if it.kind == "impl" and own_type(it.context) == parts[cut - 1]]
            found = [it for it in found if it.kind in ("", "macro")] or own
        if not found and rest:
            # the methods of a type are named by its own module, wherever their impl stands
            found = [it for it in self.by_name.get((parts[0], name), []) if it.kind == "impl" and own_type(it.context) == rest[0]]
        if not found:
            found = self.in_macros.get((parts[0], name), [])
        if not found:
            self.missing[symbol] += 1
        hints = {it.hint for it in found}
        if len(hints) > 1 and rest:
            best, most = [], None
            for it in found:
                far = distance(rest[0], it)
                if most is None or far < most:
                    best, most = [], far
                if far == most:
                    best.append(it)
            hints = {it.hint for it in best}
            if len(hints) > 1:
                self.unclear[symbol] += 1
        elif len(hints) > 1:
            self.unclear[symbol] += 1
        return sorted(hints)[0] if hints else ""


def own_type(header):
    """The name of the type of an impl that is of no trait, else None."""
    header = re.sub(r"\b(where|requires|ensures)\b.*$", "", header)
    text, depth = "", 0
    for char in re.sub(r"^((unsafe|ghost) )*impl\s*", "", header):
        depth += (char == "<") - (char == ">")
        text += char if depth == 0 and char != ">" else " "
    if " for " in f" {text} ":
        return None
    words = re.findall(r"\w+", text)
    return words[-1] if words else None


def distance(segment, one):
    """How far the words of an impl's header are from the name that a module gives it, as VecDerefSlice."""
    if one.kind == "trait" or not one.context.startswith(("impl", "unsafe impl")):
        return 0 if one.context == segment else 50
    header = re.sub(r"^(unsafe )?impl\s*(<[^<>]*(<[^<>]*>[^<>]*)*>)?", "", one.context)
    header = re.split(r"\bwhere\b|\brequires\b|\bensures\b", header)[0]
    taken = " ".join(header.split(" for ")[::-1]) if " for " in header else header
    taken = taken.replace("&mut", " RefMut ").replace("&", " Ref ").replace("[", " Slice ")
    words = [it for it in re.findall(r"\w+", taken) if it not in ("mut", "dyn")]
    if "+" in segment:
        wanted = segment.split("+")
        words = ["slice" if it == "Slice" else it for it in words]
    else:
        wanted = re.findall(r"[A-Z][a-z0-9]*", segment)
        words = [piece for it in words for piece in re.findall(r"[A-Z][a-z0-9]*|[a-z0-9]+", it)]
        words = [it[0].upper() + it[1:] for it in words]
    # single letters are parameters of types, which names may leave out
    more = collections.Counter(words)
    more.subtract(wanted)
    return sum(abs(count) * (1 if len(word) == 1 else 4) for word, count in more.items())
