// Faults and refusals in words, by the codes of docs/formats.md, each with what to look for.
import { BAD_JSON, BAD_PATH, ABSENT, BAD_SCHEMA, INVALID, NO_MEMORY, NO_TYPE, REFUSED, SYNTAX,
  TOO_LONG } from "./ssz.mjs";

/** First faults of bytes, F1 to F11: name, what is so, and what to look for. */
export const FAULTS = [null,
  ["Short", "a scope ends before its fixed parts, its first offset or its selector do",
    "Was the file cut off, or is it of a shorter type, or digits in the place of bytes?"],
  ["Extra", "bytes follow a value of a fixed size",
    "Does a line feed or another value follow, or is the type of another fork longer?"],
  ["BadBool", "a boolean's byte is neither 00 nor 01",
    "Most often a field before it is missing, or one too many."],
  ["FirstOffset", "the first offset is not where the variable parts begin",
    "The first offset is the length of the fixed parts: is it the type of another fork?"],
  ["OffsetRange", "an offset is beyond its scope",
    "Was the file cut off, or does the offset count from another place than its scope's first byte?"],
  ["OffsetOrder", "an offset is below the one before it",
    "The bytes of the parts follow one another in the order of the parts."],
  ["Ragged", "a list's bytes are no whole number of elements",
    "Was the file cut off, or is the list one of other elements?"],
  ["TooMany", "there are more elements or bits than the limit",
    "Has the schema the limits of another preset (minimal, mainnet)?"],
  ["PaddingBits", "an unused bit of a bitvector is 1",
    "Has the bitvector another length in the schema? Bits after its last one are 0."],
  ["NoDelimiter", "a bitlist has no byte, or its last byte is 00",
    "The writer left the delimiting 1 out: a bitlist without bits is 01."],
  ["BadSelector", "a union's selector is no option's number",
    "Options are counted from 0, None among them."]];

const JSON_FAULTS = [null, "this is no JSON", "another kind of JSON is wanted here",
  "a string that is not written as its type has it",
  "a number that does not fit its width", "too many or too few elements or bytes",
    "a field is missing, or a member is no field",
  "no option has this selector",
    "not spelled as the library spells it: digits in lower case, no escapes, each member once"];

const SCHEMA_FAULTS = [null, "this is no JSON", "not of the form of a schema",
  "a name is 1 to 64 letters, digits or _, no digit first", "the name is taken",
  "no earlier definition has this name", "a length of 0", "a container without fields",
    "null stands at another option than the first",
  "no option, or more than 128", "the field's name is taken", "the limit is above the format's",
    "types nest deeper than 32",
  "more levels than the format has", "the default is longer than 2^24 bytes",
    "the text is longer than 2^26 bytes"];

const REFUSALS = { 5: "the path does not fit the type", 6: "the value has no such part",
  7: "the part is not of the kind that this is for",
  8: "the list is full: its length is the limit", 9: "the list is empty", 10: "no option has this selector",
    12: "too long",
  13: "the tree has no node at this index",
    14: "one of the ticked parts is in another: the leaves of a proof stand apart" };

const SAYS = {
  [INVALID]: ({ code, position }, what) =>
    `${what} are no encoding: F${code} ${FAULTS[code][0]} at byte ${position}: ${FAULTS[code][1]}.`,
  [BAD_SCHEMA]: ({ code, defines, line }) =>
    `S${code}: ${SCHEMA_FAULTS[code]}${said(", in the definition of ", defines)}${said(", at ", line)}.`,
  [BAD_JSON]: ({ code, path, detail, line }) =>
    `J${code}${said(" at ", code > 1 && code < 8 && path)}: ${detail ?? JSON_FAULTS[code]}${said(", at ", line)}.`,
  [REFUSED]: ({ code }) => `Refused: ${REFUSALS[code] ?? `code ${code}`}.`,
  [NO_TYPE]: () => "The schema has no type of this name.",
  [TOO_LONG]: () => "Too long: a value has fewer than 2^32 bytes, a text at most 2^26.",
  [SYNTAX]: () => "This spells no path: write steps after /, as in /validators/7/slashed.",
  [BAD_PATH]: () => "The path does not fit the type.",
  [ABSENT]: () => "The value has no such part.",
  [NO_MEMORY]: () => "Out of memory: the browser gives the module no more.",
};
const said = (before, text) => (text ? `${before}${text}` : "");

/** What an error says to a user. `what` names the bytes, where they are a part's. */
export function inWords(why, what = "These bytes") {
  return SAYS[why.status]?.(why, what) ?? why.message;
}
