#!/usr/bin/env python3
"""Writes the schemas of the consensus layer's types, a file a fork, from what each fork changes.

  make.py                                  writes mainnet's FORK.json here and minimal's in minimal, and an upgrade.json with the states
                                           of all forks beside them
  make.py write CONSTANTS FOLDER           writes those of other constants to a folder
  make.py upgrade CONSTANTS FORK OLD NEW   prints the script that loads a state of the fork before from the file OLD, makes a state of
                                           FORK of it, as the specifications' upgrade function does, and saves that as NEW; it reads OLD
                                           by the program `ssz` in the PATH
  CONSTANTS is mainnet, minimal, or a file: the specifications' YAML files of a preset and a configuration, one behind the other, or a
  node's answer to /eth/v1/config/spec; what is not in it is as in mainnet.

forks/FORK.txt has the classes that a fork adds or changes, in the notation of the specifications. In a class that is there already,
`...` stands for all that stays: a field of an old name gets another type in its place, `old -> new: TYPE` another name, too, and any other
field is new, behind those that are there. forks/presets.txt has the constants.
"""
import ast
import json
import operator
import os
import re
import sys

import upgrade

HERE = os.path.dirname(os.path.realpath(__file__))
FORKS = ("phase0", "altair", "bellatrix", "capella", "deneb", "electra", "fulu")
PRESETS = ("mainnet", "minimal")
BASIC = {"boolean", "byte", "uint8", "uint16", "uint32", "uint64", "uint128", "uint256"}
OPERATORS = {ast.Add: operator.add, ast.Mult: operator.mul, ast.FloorDiv: operator.floordiv, ast.Pow: operator.pow}


def lines_of(name):
    """The lines of a file of forks/, without comments and empty lines."""
    with open(os.path.join(HERE, "forks", name), encoding="ascii") as file:
        return [line.rstrip() for line in file if line.strip() and not line.startswith("#")]


def number(node, constants):
    """The number that an expression over constants stands for."""
    if isinstance(node, ast.Constant):
        return node.value
    if isinstance(node, ast.Name):
        return constants[node.id]
    if isinstance(node, ast.BinOp):
        return OPERATORS[type(node.op)](number(node.left, constants), number(node.right, constants))
    if isinstance(node, ast.Call) and node.func.id == "log2":
        return number(node.args[0], constants).bit_length() - 1
    raise ValueError(ast.dump(node))


def told_constants(path):
    """The constants of YAML files of the specifications or of a node's answer: whole numbers and 0x digits at the outer level."""
    with open(path, encoding="utf-8") as file:
        text = file.read()
    if text.lstrip().startswith("{"):
        told = json.loads(text)
        pairs = [(name, value) for name, value in told.get("data", told).items() if isinstance(value, str)]
    else:
        pairs = re.findall(r"^([A-Z][A-Z0-9_]*): *['\"]?(\w+)", text, re.M)
    return {name: int(value, 0) for name, value in pairs if re.fullmatch(r"0x[0-9a-fA-F]+|0|[1-9][0-9]*", value)}


def constants_of(preset):
    """The constants of a preset, or those that a file tells."""
    found = {}
    for line in lines_of("presets.txt"):
        name, *values = line.split()
        value = values[-1] if preset == "minimal" else values[0]
        found[name] = number(ast.parse(value, mode="eval").body, {})
    return found if preset in PRESETS else {**found, **told_constants(preset)}


def form_of(text, constants):
    """The form of a type, as docs/formats.md has it, of the notation of the specifications."""
    node = ast.parse(text, mode="eval").body
    if isinstance(node, ast.Name):
        return node.id
    kind, given = node.value.id, node.slice
    if kind in ("List", "Vector"):
        element, length = given.elts
        return {kind.lower(): [ast.unparse(element), number(length, constants)]}
    if kind in ("ByteList", "ByteVector"):
        return {kind[4:].lower(): ["byte", number(given, constants)]}
    return {kind.lower(): number(given, constants)}


def changed(fields, line, constants):
    """A container's fields after a line of a class that changes it."""
    named, text = (part.strip() for part in line.split(":", 1))
    old, _, new = (part.strip() for part in named.partition("->"))
    field = [new or old, form_of(text, constants)]
    names = [name for name, _ in fields]
    if old in names:
        place = names.index(old)
        return fields[:place] + [field] + fields[place + 1:]
    if new:
        raise ValueError(f"no field {old}")
    return fields + [field]


def after(types, fork, constants):
    """The types after what a fork changes."""
    types, name = dict(types), None
    for line in lines_of(f"{fork}.txt"):
        if line.startswith("class "):
            name = line[len("class "):].rstrip(":")
            before, types[name] = types.get(name), []
        elif line.strip() == "...":
            types[name] = before
        elif line.startswith(" "):
            types[name] = changed(types[name], line, constants)
        else:
            named, text = line.split(" = ")
            types[named] = form_of(text, constants)
    return types


def used(form):
    """The names that a form uses."""
    if isinstance(form, str):
        return [form]
    if isinstance(form, list):
        return [name for _, field in form for name in used(field)]
    (given,) = form.values()
    return [given[0]] if isinstance(given, list) else []


def in_order(names, types):
    """These names and those that they use, each behind those that it uses."""
    placed = []

    def place(name):
        if name not in BASIC and name not in placed:
            for other in used(types[name]):
                place(other)
            placed.append(name)

    for name in names:
        place(name)
    return placed


def text_of(types):
    """The text of a schema, a line a type, and of a container a line a field."""
    def line(name):
        form = types[name]
        if not isinstance(form, list):
            return json.dumps([name, form], separators=(",", ":"))
        fields = ",\n".join("  " + json.dumps(field, separators=(",", ":")) for field in form)
        return f'["{name}",{{"container":[\n{fields}]}}]'
    return '{"ssz":1,"types":[\n' + ",\n".join(map(line, in_order(types, types))) + "\n]}\n"


def types_of_forks(constants):
    """The types of each fork by their names."""
    types, found = {}, {}
    for fork in FORKS:
        found[fork] = types = after(types, fork, constants)
    return found


def renamed(form, names):
    """A form with other names in it."""
    if isinstance(form, str):
        return names.get(form, form)
    if isinstance(form, list):
        return [[name, renamed(field, names)] for name, field in form]
    (kind, given), = form.items()
    return {kind: [renamed(given[0], names), given[1]] if isinstance(given, list) else given}


def states(forks):
    """The types of the states of all forks; each form of a type that changes has the name of the first fork with it in front."""
    numbers, whole, firsts = {}, {}, {}
    for fork, types in forks.items():
        for name in in_order(["BeaconState"], types):
            parts = {other: whole[fork, other] for other in used(types[name]) if other not in BASIC}
            form = json.dumps(renamed(types[name], parts))
            whole[fork, name] = numbers.setdefault(form, f"#{len(numbers)}")
            firsts.setdefault(name, {}).setdefault(whole[fork, name], fork)
    found = {}
    for fork, types in forks.items():
        here = {name: number for (other, name), number in whole.items() if other == fork}
        names = {name: firsts[name][number].capitalize() + name for name, number in here.items() if len(firsts[name]) > 1}
        found.update((names.get(name, name), renamed(types[name], names)) for name in here)
    return found


def schemas(preset):
    """The text of each fork's schema, and of the states of all forks."""
    forks = types_of_forks(constants_of(preset))
    return {**{fork: text_of(types) for fork, types in forks.items()}, "upgrade": text_of(states(forks))}


def write(preset, folder):
    os.makedirs(folder, exist_ok=True)
    for name, text in schemas(preset).items():
        with open(os.path.join(folder, f"{name}.json"), "w", encoding="ascii") as file:
            file.write(text)


def main(words):
    if not words:
        write("mainnet", HERE)
        write("minimal", os.path.join(HERE, "minimal"))
    elif words[0] == "write" and len(words) == 3:
        write(*words[1:])
    elif words[0] == "upgrade" and len(words) == 5 and words[2] in FORKS[1:]:
        _, preset, fork, old, new = words
        print(upgrade.script(FORKS[FORKS.index(fork) - 1], fork, constants_of(preset), schemas(preset)["upgrade"], old, new), end="")
    else:
        sys.exit(__doc__)


if __name__ == "__main__":
    if {"-h", "--help"} & set(sys.argv[1:]):
        sys.exit(print(__doc__))
    main(sys.argv[1:])
