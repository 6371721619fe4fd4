"""Runs of `root` and `verify` whose answers are known from outside: those of known.txt."""
import os

from program.runs import LONG, USAGE, Run, Shared

FOLDER = os.path.dirname(os.path.abspath(__file__))
SCHEMA = """{"ssz":1,"types":[
    ["O",{"container":[["a","uint64"]]}],
    ["P",{"container":[["a","uint64"],["b","uint64"]]}],
    ["R",{"container":[["a","uint64"],["b","uint64"],["c","uint64"],["d","uint64"]]}],
    ["M",{"container":[["a","uint16"],["b",{"list":["uint8",4]}]]}],
    ["K",{"container":[["a","boolean"],["b",{"list":["uint8",4]}]]}],
    ["U",{"union":[null,"uint64"]}],
    ["Lists",{"list":[{"list":["uint8",4]},4]}],
    ["Many",{"list":[{"list":["uint8",4]},1099511627776]}],
    ["One",{"list":[{"list":["uint8",4]},1]}],
    ["Ms",{"list":["M",4]}],
    ["Two",{"container":[["a",{"list":["uint16",4]}],["b",{"list":["uint8",4]}]]}],
    ["V",{"union":["uint8",{"list":["uint64",2]}]}],
    ["Bools",{"vector":["boolean",3]}],
    ["Numbers",{"list":["uint64",4]}],
    ["None",{"list":["uint64",0]}],
    ["Bytes",{"list":["uint8",1099511627776]}],
    ["Bits3",{"bitlist":3}],
    ["Bits8",{"bitlist":8}],
    ["BitsMany",{"bitlist":1099511627776}],
    ["Four",{"bitvector":4}],
    ["Eight",{"bitvector":8}],
    ["Bytes4",{"vector":["byte",4]}],
    ["Bytes32",{"vector":["byte",32]}],
    ["Bytes48",{"vector":["byte",48]}],
    ["Bytes96",{"vector":["byte",96]}],
    ["ForkData",{"container":[["current_version","Bytes4"],["genesis_validators_root","Bytes32"]]}],
    ["DepositData",{"container":[["pubkey","Bytes48"],["withdrawal_credentials","Bytes32"],\
["amount","uint64"],["signature","Bytes96"]]}],
    ["Deposits",{"list":["DepositData",4294967296]}]
]}
"""
ONE, TWO = "0x01" + "00" * 31, "0x02" + "00" * 31
FILES = {
    "types.json": Shared("known.json"),
    "empty_vector.json": '{"ssz":1,"types":[["P",{"vector":["uint8",0]}]]}',
    "format_3.json": '{"ssz":3,"types":[]}',
    "long_list_1.json": '{"ssz":1,"types":[["P",{"list":["uint64",4611686018427387904]}]]}',
    "long_list_2.json": '{"ssz":2,"types":[["P",{"list":["uint64",4611686018427387904]}]]}',
    "no_types.json": '{"ssz":1,"types":[]}',
    "open_brace.json": "{",
    "same_name.json": '{"ssz":1,"types":[["T","byte"],["T","V"]]}',
    "no_line_feed.txt": "proof 2=%s / 3=%s" % (ONE, TWO),
    "carriage_return.txt": "proof 1=%s /\r\n" % ONE,
    "long": LONG,
}


def files_of(words, texts):
    """The files that the words name, where there are any."""
    first, _, second = texts.partition(";")
    files = {**FILES, "p": first + "\n", "q": second + "\n"}
    try:
        files["v"] = bytes.fromhex(first)
    except ValueError:
        pass
    return {word: files[word] for word in words if word in files}


def run_of(row, status, line):
    hasher, words, texts = row.split(";", 2)
    words = words.split()
    return Run(hasher, words, files_of(words, texts), status, line + "\n" if line else "")


def runs():
    with open(os.path.join(FOLDER, "known.txt"), encoding="ascii") as file:
        lines = [line for line in file.read().splitlines() if not line.startswith("#")]
    for row, answer in zip(lines[::2], lines[1::2]):
        status, _, line = answer.partition(" ")
        yield run_of(row, int(status), USAGE if line == "USAGE" else line)
