"""What goes wrong, in words that say what to do."""

from __future__ import annotations

from enum import IntEnum


class Status(IntEnum):
    """What a call of the library answers: the SSZ_ numbers of ssz.h."""

    OK = 0
    NO_HANDLE = 1
    NO_TYPE = 2
    TOO_LONG = 3
    INVALID = 4
    BAD_SCHEMA = 5
    SYNTAX = 6
    BAD_PATH = 7
    ABSENT = 8
    BAD_PROOF = 9
    UNLIKE = 10
    NO_MEMORY = 11
    NO_ROOM = 12
    REFUSED = 13
    NO_READ = 14
    NO_WRITE = 15
    NULL = 16
    NO_PLACE = 17
    BAD_JSON = 18


#: Of each first fault of bytes its name, what is wrong, and what to do.
FAULTS = {
    1: ("Short", "the bytes end too soon",
        "The file may be cut off, be of a shorter type, or hold hexadecimal digits in the place of bytes."),
    2: ("Extra", "bytes follow the end of the value",
        "See whether a line feed or another value stands there, or whether the type is that of another fork."),
    3: ("BadBool", "a boolean is one byte, 00 or 01, and here stands another one",
        "Compare the bytes in front with the type: most often a field is missing there, or one too many."),
    4: ("FirstOffset", "the first offset does not lead to where the variable parts begin",
        "Compare the fields with the type, which may be another fork's."),
    5: ("OffsetRange", "an offset leads behind the end of the bytes", "See whether the file was cut off."),
    6: ("OffsetOrder", "an offset is below the one before it",
        "Mend the writer: the bytes of the parts follow one another in the order of the parts."),
    7: ("Ragged", "a list's bytes are no whole number of elements",
        "See whether the file was cut off, or the list is one of another type of elements."),
    8: ("TooMany", "a list has more elements or bits than its limit",
        "See whether the schema has the limits of another preset (minimal, mainnet)."),
    9: ("PaddingBits", "a bit behind the last one of a bitvector is 1",
        "See whether the bitvector has another length in the schema: the bits behind its last one are 0."),
    10: ("NoDelimiter", "a bitlist lacks the 1 that marks its end", "A bitlist without bits is the byte 01: mend the writer."),
    11: ("BadSelector", "a union's first byte is no option's number", "Compare with the union's options, counted from 0."),
}

#: Of each fault of a schema its name, what is wrong, and what to do.
SCHEMA_FAULTS = {
    1: ("NotJson", "this is no JSON", "Let a JSON tool find the place (python3 -m json.tool FILE): often a comma too many."),
    2: ("Shape", "this JSON is no schema",
        'A schema is {"ssz": 1, "types": [[NAME, FORM], ..]}, and a form in braces has one member, as {"list": ["uint64", 8]}.'),
    3: ("BadName", "a name is no name", "A name has letters, digits and _, no digit first, and at most 64 of them."),
    4: ("NameTaken", "a name is defined twice, or is built in", "Rename the later definition, or leave it out."),
    5: ("UnknownName", "a form uses a name that is not defined before it",
        "Look for a slip of spelling, or move the definition that is used in front of this one."),
    6: ("ZeroLength", "a vector has length 0", "Give it a length from 1 on, or make it a list."),
    7: ("EmptyContainer", "a container has no fields", "Give it a field."),
    8: ("NonePlace", "null stands behind the first option of a union", "Move null to the front."),
    9: ("UnionSize", "a union has no option, or more than 128", "Give it 1 to 128 options."),
    10: ("FieldTaken", "a container has two fields of one name", "Rename the later one."),
    11: ("LimitTooBig", "a limit is too great", 'Lower it to 2^40, or say "ssz": 2, where limits go to 2^62.'),
    12: ("Nest", "types nest deeper than 32", "Take a level out of the types in one another."),
    13: ("Levels", "the tree of the type has too many levels", 'Lower a limit, or say "ssz": 2.'),
    14: ("Size", "the default value is longer than 2^24 bytes", "Make the long vector a list, or make it shorter."),
    15: ("TooLong", "the text is longer than 2^26 bytes", "See whether this is the schema, and not a value."),
}

#: Of each fault of a value's JSON its name, what is wrong, and what to do.
JSON_FAULTS = {
    1: ("NotJson", "this is no JSON", "Let a JSON tool find the place: often a comma too many."),
    2: ("Kind", "a part is another kind of JSON", "Numbers, bits and bytes are strings in this form; encode reads the other forms."),
    3: ("Text", "a string is not written as its type wants it",
        "No leading zeros, 0x in front of bytes, digits in lower case, bits as 0 and 1."),
    4: ("Range", "a number does not fit its width", "See whether the field is wider in another fork, or mend the number."),
    5: ("Count", "a part has another number of bytes or elements",
        "Compare with the length or the limit in the schema, which may be another preset's."),
    6: ("Member", "a field is missing, or a member is no field", "Compare with the fields of the type, which may be another fork's."),
    7: ("Selector", "a selector is no option's number", "Compare with the union's options, counted from 0."),
    8: ("Spelling", "the text is not spelled as the value's own",
        "Leave out white space, escapes and the last line feed, and order the members; encode reads other spellings."),
}

#: Of each refusal of a session its name, what is wrong, and what to do.
REFUSALS = {
    1: ("Syntax", "the line is no statement", "Compare it with the table of statements in docs/formats.md."),
    2: ("NoType", "the schema has no type of this name", "Case counts; Schema.names lists the names."),
    3: ("NoVersion", "the session has no version of this name", "It was not made, or is dropped."),
    4: ("NameTaken", "the session has a version of this name", "Take another name, or drop that one first."),
    5: ("BadPath", "the path does not fit the type", "Name fields, and number elements from 0: /validators/7/slashed."),
    6: ("Absent", "the value has no such part", "Ask for the length first; append makes elements, choose another option."),
    7: ("NotThat", "the part is of another kind than this call is for", "append and pop are for lists, choose is for unions."),
    8: ("Full", "the list has as many elements as its limit", "Take an element away first, or raise the limit in the schema."),
    9: ("Empty", "the list is empty", "Ask for the length before pop."),
    10: ("BadSelector", "the union has no option of this number", "Count the options from 0, None among them."),
    11: ("BadLiteral", "the bytes encode no value of the type", "Numbers are little-endian and of the full width of their type."),
    12: ("TooLong", "the encoding is too long", "An encoding has less than 2^32 bytes."),
    13: ("NoNode", "the tree has no node at this index", "Ask gindex for the index of the part."),
    14: ("Nested", "one of the two parts is in the other", "Prove the outer one alone."),
    15: ("NotHere", "the statement has no place here", "Use run, one script after another."),
    16: ("NotContainer", "the version or the type is no container", "Name a version and a type that are containers."),
    17: ("Blind", "the proof does not know this node", "Ask for a proof that has this index too."),
    18: ("BadJson", "the text is not the JSON of a value", "Compare it with docs/formats.md, Values as JSON."),
}

_OTHERS = {
    Status.NO_HANDLE: ("it is closed", "Make a new one."),
    Status.NO_TYPE: ("the schema has no type of this name", "Case counts; Schema.names lists the names."),
    Status.TOO_LONG: ("this is too long", "A value has less than 2^32 bytes, a path or a proof at most 2^26."),
    Status.SYNTAX: ("this is no path", "A path begins with /, as /validators/7/slashed; numbers have no leading zeros."),
    Status.BAD_PATH: REFUSALS[5][1:],
    Status.ABSENT: REFUSALS[6][1:],
    Status.BAD_PROOF: ("the text is no multiproof",
                       "It is one line, proof INDEX=0x.. .. / INDEX=0x.. .., and has exactly the nodes that the leaves need."),
    Status.UNLIKE: ("the proof leads to another root", "See whether root and proof are of the same value."),
    Status.NO_MEMORY: ("memory is used up", "Drop values that are not needed, and call compact()."),
    Status.NO_READ: ("a session reads no file", "Use load with the file's bytes."),
    Status.NO_WRITE: ("a session writes no file", "Write what bytes returns."),
    Status.NO_PLACE: ("the part is a bit or a length, which has no bytes of its own", "Ask for the part, or for the bytes around it."),
}


class SszError(Exception):
    """What a call did not do, and why: `type` and `path` say of what, `name` and `code` which fault, `position` which byte
    (of a schema: which definition), `what` and `advice` the same in words."""

    def __init__(self, what: str, advice: str = "", *, status: int = 0, code: int = 0, name: str = "", position: int = 0,
                 type: str = "", path: str = "", place: str = "") -> None:
        self.what, self.advice = what, advice
        self.status, self.code, self.name, self.position = Status(status), code, name, position
        self.type, self.path = type, path
        subject = " ".join(word for word in (type, path if path != "/" else "") if word)
        text = ": ".join(word for word in (subject, what) if word) + (f" ({place})" if place else "") + "."
        super().__init__(f"{text} {advice}".rstrip())


class InvalidBytes(SszError, ValueError):
    """The bytes encode no value of the type."""


class BadJson(SszError, ValueError):
    """The text is not the JSON of a value, in the one spelling that `ssz run` has."""


class BadSchema(SszError, ValueError):
    """The text is no schema."""


class NoSuchType(SszError, LookupError):
    """The schema has no type of this name."""


class BadPath(SszError, LookupError):
    """The text is no path, or the path does not fit the type."""


class NoSuchPart(SszError, IndexError):
    """The path fits the type, and the value has no such part."""


class BadProof(SszError, ValueError):
    """The text is no multiproof."""


class BadValue(SszError, ValueError):
    """What was given can't be made a value of the type."""


class Refused(SszError):
    """A session refused the call: `code` and `name` are those of docs/formats.md."""


_CLASSES = {
    Status.INVALID: InvalidBytes,
    Status.BAD_SCHEMA: BadSchema,
    Status.NO_TYPE: NoSuchType,
    Status.SYNTAX: BadPath,
    Status.BAD_PATH: BadPath,
    Status.ABSENT: NoSuchPart,
    Status.NO_PLACE: NoSuchPart,
    Status.BAD_PROOF: BadProof,
    Status.BAD_JSON: BadJson,
    Status.REFUSED: Refused,
}
_REFUSED = {2: NoSuchType, 5: BadPath, 6: NoSuchPart, 8: NoSuchPart, 9: NoSuchPart}


def error_of(status: int, code: int, position: int, *, type: str = "", path: str = "", part: str = "") -> SszError:
    """The error of a call that ended so. `part` says in which part of the value the byte stands."""
    kind, place, name = _CLASSES.get(Status(status), SszError), "", Status(status).name
    if status == Status.INVALID:
        name, what, advice = FAULTS[code]
        place = f"F{code} {name}, at byte {position}" + (f", in {part}" if part not in ("", "/") else "")
    elif status == Status.BAD_SCHEMA:
        name, what, advice = SCHEMA_FAULTS[code]
        place = f"S{code} {name}" + (f", definition {position}, counted from 0" if 3 <= code <= 14 else "")
    elif status == Status.BAD_JSON:
        name, what, advice = JSON_FAULTS[code]
        place = f"J{code} {name}" + (f", part {position}, counted from 0 in the order of the text" if 2 <= code <= 7 else "")
    elif status == Status.REFUSED:
        name, what, advice = REFUSALS[code]
        kind, place = _REFUSED.get(code, Refused), f"{code} {name}"
    else:
        what, advice = _OTHERS.get(Status(status), ("the call failed", ""))
    return kind(what, advice, status=status, code=code, name=name, position=position, type=type, path=path, place=place)
