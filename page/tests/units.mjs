// Tests of what the page works out by itself, as tables.
import assert from "node:assert/strict";
import { scan, spelled, pretty, lineOf } from "../lib/json.mjs";
import { hexOf, ofHex } from "../lib/hex.mjs";
import { helperIndices, readProof, compared } from "../lib/proofs.mjs";
import { Types, form } from "../lib/types.mjs";
import { find, partAt, partOfJson, countOf, shown } from "../lib/parts.mjs";
import { drawn, draws } from "../lib/draws.mjs";
import { takeWords } from "./words.mjs";

takeWords("units.mjs: tests what the page works out by itself", (given) => !given.length);

let tests = 0;
const same = (ours, wanted, what) => { assert.deepEqual(ours, wanted, what); tests++; };

// Texts that JSON.parse takes have the same value; what it refuses is refused, at a place.
for (const text of ['{"b":[1,-2.5e3,true,null],"a":"\\u00e9\\n"}', " [ ] ", '{"":{}}', '"x"', "0", "[[[]]]",
  '{"a":1,"a":2}'])
  same(JSON.parse(spelled(scan(text))), JSON.parse(text), text);
for (const [text, at] of [["", 0], ["{", 1], ['{"a" 1}', 5], ["[1,]", 3], ["[1 2]", 3], ["01", 0],
  ["tru", 0], ['"a', 2], ["1 x", 2], ['{a:1}', 1], ["[".repeat(200), 129], ["1.", 0]])
  assert.throws(() => scan(text), (why) => why.at === at || assert.fail(`${text}: ${why.at}`), text),
    tests++;
same(spelled(scan('{ "b" : 1.0, "a" : [ 2 , "x" ] }')), '{"a":[2,"x"],"b":1.0}');
same(lineOf("a\nbc\nd", 3), "line 2, column 2");

for (const [text, wanted] of [["0x0aFF", "0aff"], ["", ""], [" 00\n11 ", "0011"]]) same(hexOf(ofHex(text)),
  wanted);
for (const text of ["0", "0x0", "zz", "0x0g"]) assert.throws(() => ofHex(text)), tests++;

// Helper indices: examples of docs/formats.md, and one leaf.
for (const [leaves, wanted] of [[[4n, 6n], [7n, 5n]], [[9n], [8n, 5n, 3n]], [[1n], []],
  [[2n, 3n], []]]) same(helperIndices(leaves), wanted);
const chunk = (digit) => `0x${digit.repeat(64)}`;
for (const [text, bad] of [[`proof 2=${chunk("1")} / 3=${chunk("2")}`, undefined],
  ["", "it does not begin"], ["proof / ", "it has no leaf"],
  [`proof 2=${chunk("1")} /`, "index 3 is missing"],
  [`proof 2=${chunk("1")} / 3=${chunk("2")} 5=${chunk("2")}`, "no leaf needs"],
    [`proof 2=${chunk("1")} 4=${chunk("1")} / 3=${chunk("2")}`, "leaf 4 is below leaf 2"],
    ["proof 2=0x1 / ", "is not an index"],
  [`proof 9=${chunk("1")} / 3=${chunk("1")} 5=${chunk("1")} 8=${chunk("1")}`, "descending"]])
  same(bad ? readProof(text).bad.includes(bad) : readProof(text).bad === undefined, true, text);
const [one, other] = ["1", "3"].map((it) => readProof(`proof 2=${chunk(it)} / 3=${chunk("2")}`));
same(compared(one, other).map((it) => [it.index, it.is, it.same]),
  [["2", "leaf", false], ["3", "helper", true]]);

const types = new Types('{"ssz":1,"types":[["S",{"container":[["a","uint16"],["b",{"list":["uint8",4]}],["c",{"bitlist":9}]]}],["L",{"list":["S",5]}],["U",{"union":[null,"S"]}]]}');
const S = types.get("S"), bytes = ofHex("aabb" + "0a000000" + "0c000000" + "0102" + "0d");
same([S.fixed, S.size, form(S), types.own], [10, null, "Container of 3 fields", ["S", "L", "U"]]);
same(scan(types.text).members[1][1].items.length, 5, "a name for each form");
same([find(S, bytes, "/b").from, find(S, bytes, "/b").to, find(S, bytes, "/b").offset],
  [10, 12, { at: 2, value: 10 }]);
same([find(S, bytes, "/x"), find(S, bytes, "/b/2"), find(S, bytes, "/a/0")], [null, null, null]);
same(countOf(S.fields[2].type, bytes, 12, 13), 3);
for (const [position, wanted] of [[0, "/a"], [3, "/b"], [6, "/c"], [11, "/b"], [12, "/c"]]) same(partAt(S,
  bytes, position).path, wanted);
same(partAt(S, bytes, 3).is, "offset");
for (let cut = 0; cut < bytes.length; cut++) for (let at = 0; at <= cut; at++) partAt(types.get("L"),
  bytes.subarray(0, cut), at);
same(shown(find(S, bytes, "/c"), bytes), "101 (3 bits)");
const json = scan('{"a":"1","b":"0x0102","c":"101"}');
for (const [number, path] of [[0, "/"], [1, "/a"], [2, "/b"], [3, "/c"], [9, "/"]]) same(partOfJson(S, json,
  number).path, path);
same(pretty(scan('[1,{"a":"1","b":"0x","c":""}]'), types.get("U")),
  '[\n  1,\n  {\n    "a": "1",\n    "b": "0x",\n    "c": ""\n  }\n]');
same(drawn(S, draws(5)), drawn(S, draws(5)));
same(JSON.parse(drawn(types.get("L"), draws(3))).length <= 3, true);
console.log(`${tests} tests`);
