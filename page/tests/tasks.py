"""What users do with the page, from the first click to the result; answers are compared with the program's."""
import hashlib
import json
import tempfile

from browser import schema_texts
from selenium.webdriver.common.keys import Keys

PAIR = '{"ssz":1,"types":[\n  ["Pair",{"container":[["a","uint64"],["b","uint64"]]}]\n]}'
CHOICE = ('{"ssz":1,"types":[["U",{"union":[null,"uint64",{"list":["uint16",3]}]}],'
          '["B",{"container":[["bits",{"bitlist":9}],["u","U"],["list",{"list":["U",3]}]]}]]}')
ZEROS = "0xf5a5fd42d16a20302798ef6ed309979b43003d2320d9f0e8ea9831a92759fb4b"
DENEB = "mainnet/deneb"
ATTESTATION = {"schema": DENEB, "type": "Attestation", "seed": 11}


def a_first_root(page):
    """The root of 16 zero bytes by a schema of one's own; then bytes that are too many and too few."""
    page.open()
    page.own_schema(PAIR)
    page.give("00" * 16)
    page.good(ZEROS)
    page.until(lambda: page.row("/b") is not None and page.inside("cells", "/b")[3] == "✓ 8–15", what="the parts")
    assert page.inside("cells", "/b")[1:3] == ["uint64", "3"], page.inside("cells", "/b")
    page.give("00" * 17)
    page.bad("F2 Extra at byte 16")
    page.until(lambda: [it.text for it in page.all("#hex .fault")] == ["00"], what="the byte of the fault")
    page.give("00" * 15)
    page.bad("F1 Short at byte 0")
    page.give("0")
    page.until(lambda: "a byte has two" in page.text("value-error"), what="a word about digits")


def where_a_fault_lies(page):
    """An offset of a block that is changed: the fault in words, its byte in the digits, and the part."""
    page.open(schema=DENEB, type="SignedBeaconBlock", seed=6)
    page.good()
    bad = bytearray.fromhex(page.value("hex-text"))
    page.select("/message/body/attestations/0/data/slot")
    offset = page.ask("part", path="/message/body/attestations/0")["offset"]["at"]
    bad[offset:offset + 4] = (2 ** 31).to_bytes(4, "little")
    page.give(bad.hex())
    says = page.native_root(schema_texts()[DENEB], "SignedBeaconBlock", bytes(bad)).split()
    assert says[0] == "invalid"
    page.bad(f"{says[1]} ")
    page.bad(f"at byte {says[2]}")
    assert "at the offset of /message/body/attestations/0" in page.text("verdict-more"), page.text("verdict-more")
    page.until(lambda: page.all("#hex .fault"), what="the byte of the fault")
    assert page.all("#hex .fault")[0].get_attribute("data-at") == says[2]


def a_file_in_and_out(page):
    """A state as a file: its root is the program's, and its bytes come out as they went in."""
    electra = "mainnet/electra"
    page.open(schema=electra, type="BeaconState")
    page.press("default")
    page.good()
    data = bytearray.fromhex(page.later("whole"))
    assert len(data) == page.run("return explorer.app.length")
    data[8:40] = hashlib.sha256(b"genesis").digest()
    with tempfile.NamedTemporaryFile(suffix=".ssz") as it:
        it.write(data)
        it.flush()
        page.at("file").send_keys(it.name)
        page.good(page.native_root(schema_texts()[electra], "BeaconState", bytes(data)).split()[1])
    page.until(lambda: page.row("/genesis_validators_root") is not None, what="the parts")
    assert bytes.fromhex(page.later("whole")) == data
    return f"{len(data):,} bytes"


def json_both_ways(page):
    """JSON of a value, an edit of it, and what is wrong with a text, at its place."""
    page.open(schema=DENEB, type="Checkpoint", hex="00" * 40)
    page.press("tab-json")
    page.until(lambda: '"epoch": "0"' in page.value("json"), what="the JSON")
    page.fill("json", page.value("json").replace('"epoch": "0"', '"epoch": "258"'))
    page.press("read-json")
    page.good("0x" + hashlib.sha256((258).to_bytes(8, "little") + bytes(56)).hexdigest())
    assert page.value("hex-text").startswith("0201")
    for text, says, marks in [('{"epoch":"01","root":"0x"}', "J3 at /epoch", '"01"'),
                              ('{"epoch":"1"}', "J6", '{"epoch":"1"}'),
                              ('{"epoch":\n"1",}', "line 2, column 5", "}"),
                              ('{"epoch":"99999999999999999999","root":"0x"}', "J4 at /epoch", '"99999999999999999999"')]:
        page.fill("json", text)
        page.press("read-json")
        page.until(lambda: says in page.text("value-error"), what=says)
        assert page.inside("selectedText", "json") == marks, (text, page.inside("selectedText", "json"))
    assert page.value("hex-text").startswith("0201")


def keys_alone(page):
    """Two parts by the keyboard alone, and their multiproof, which is the program's."""
    page.open(**ATTESTATION)
    page.good()
    page.until(lambda: page.row("/data") is not None and page.value("proof"), what="the parts")
    page.run("document.querySelector('#parts tr[tabindex=\"0\"]').focus()")
    page.keys(Keys.DOWN, Keys.DOWN, Keys.RIGHT)
    page.until(lambda: page.row("/data/slot") is not None, what="/data to be open")
    assert page.row("/data").get_attribute("aria-expanded") == "true"
    page.keys(Keys.DOWN, " ", Keys.DOWN, " ")
    page.until(lambda: "/data/slot, /data/index" in page.text("chosen"), what="a multiproof")
    lines = [f"lit V Attestation 0x{page.value('hex-text')}", "prove V /data/slot /data/index"]
    assert page.value("proof") == page.script(schema_texts()[DENEB], lines)[1]
    page.keys(Keys.LEFT, Keys.LEFT)
    page.until(lambda: page.row("/data/slot") is None, what="/data to be closed")


def a_check(page):
    """A proof and a root: valid, of another root, and bad, with why."""
    page.open(**ATTESTATION, path="/data/slot")
    root = page.good()
    page.until(lambda: page.value("proof").startswith("proof 40="), what="a proof")
    page.press("to-check")
    page.until(lambda: page.text("answer").startswith("Valid"), what="valid")
    page.fill("check-root", "0x" + "11" * 32)
    page.press("check")
    page.until(lambda: page.text("answer").startswith("Unlike"), what="unlike")
    page.fill("check-root", root)
    page.fill("check-proof", page.value("proof").rsplit(" ", 1)[0])
    page.press("check")
    page.until(lambda: page.text("answer").startswith("Bad"), what="bad")
    assert "helper at index 3 is missing" in page.text("answer"), page.text("answer")


def bytes_and_parts(page):
    """A byte leads to its part, and a part to its bytes, by clicks and by keys."""
    page.open(**ATTESTATION)
    page.until(lambda: page.all("#hex .part"), what="the digits")
    page.run("document.querySelector('#hex [data-at=\"60\"]').click()")
    page.until(lambda: page.is_selected("/data/source/root"), what="the part of byte 60")
    page.until(lambda: page.inside("marked") == [60, 91], what="its bytes")
    page.run("document.querySelector('#hex [data-at=\"0\"]').click()")
    page.until(lambda: page.is_selected("/aggregation_bits"), what="the part of an offset")
    page.until(lambda: len(page.all("#hex .offset")) == 4, what="the bytes of the offset")
    page.run("document.getElementById('hex').focus()")
    page.keys(Keys.HOME, *[Keys.RIGHT] * 4, Keys.ENTER)
    page.until(lambda: page.is_selected("/data/slot"), what="the part of byte 4 by keys")
    page.go_to("92")
    page.until(lambda: page.is_selected("/data/target/epoch"), what="the part of byte 92")
    page.go_to("/data/no")
    page.until(lambda: "There is no /data/no" in page.text("goto-error"), what="a word about a wrong path")


EDITS = [("/bits", "append", "true", "append V /bits 0x01"), ("/bits/0", "set", "false", "set V /bits/0 0x00"),
         ("/list", "append", '[1,"7"]', "append V /list 0x010700000000000000"),
         ("/list/0", "set", '[2,["5","6"]]', "set V /list/0 0x0205000600"),
         ("/list/0/#2", "pop", "", "pop V /list/0/#2"), ("/list", "pop", "", "pop V /list")]


def edits_and_undo(page):
    """Sets, appends, pops and a choice: each root is the program's; undo and redo."""
    page.open(text=CHOICE, type="B")
    page.press("default")
    roots = [page.good()]
    for path, does, text, _ in EDITS:
        page.select(path)
        page.edit(does, text)
        roots.append(page.text("root"))
    page.select("/u")
    page.choose("does", "choose")
    assert not page.at("literal").is_displayed()
    page.choose("option", "1")
    page.until(lambda: page.value("literal") == '"0"', what="the default of the option")
    page.edit("choose", '"9"')
    roots.append(page.text("root"))
    lines = ["new V B", *(it[3] for it in EDITS), "choose V /u 1 0x0900000000000000"]
    replies = page.script(CHOICE, [line for own in lines for line in (own, "root V")])
    assert [it.split()[1] for it in replies[1::2]] == roots, (replies, roots)
    assert "pairs" in page.text("verdict-more")
    for _ in range(3):
        page.press("undo")
    page.until(lambda: page.text("root") == roots[4], what="three steps back")
    page.press("redo")
    page.until(lambda: page.text("root") == roots[5], what="a step on")
    assert len(page.all("#versions li")) == 8


def a_picture(page):
    """The tree on the way to a balance: its nodes, what is folded, the same as a table, and a name at a helper."""
    page.open(schema="minimal/fulu", type="BeaconState")
    page.press("default")
    page.good()
    page.select("/balances")
    page.edit("append", '"32000000000"')
    page.select("/balances/0")
    page.until(lambda: "levels whose helpers are trees of zeros" in page.text("picture"), what="the picture")
    few = len(page.all("#picture rect"))
    page.press("all")
    page.until(lambda: len(page.all("#picture rect")) > few + 30, what="all levels")
    page.run("document.querySelector('#nodes summary').click()")
    page.until(lambda: page.all("#nodes tbody tr"), what="the table")
    rows, depth = page.inside("nodes"), page.ask("part", path="/balances/0")["depth"]
    assert len(rows) == 2 * depth + 1 == len(page.all("#picture rect")), (len(rows), depth)
    assert rows[0][1] == "root" and rows[0][3] == page.text("root")
    chunks = {int(it[0]): bytes.fromhex(it[3][2:]) for it in rows}
    for index, chunk in chunks.items():
        if 2 * index in chunks:
            assert hashlib.sha256(chunks[2 * index] + chunks[2 * index + 1]).digest() == chunk, index
    assert any(it[1:3] == ["helper", "randao_mixes"] for it in rows), rows
    return f"{len(rows)} nodes, each the hash of the two below it"


def two_proofs(page):
    """A proof from before an edit and one from after it: what differs, and which leads to the root."""
    page.open(**ATTESTATION, path="/data/source/epoch")
    page.until(lambda: page.value("proof").startswith("proof 86="), what="a proof")
    first = page.value("proof")
    page.inside("prove", "/data/source/epoch")
    page.edit("set", '"77"')
    page.until(lambda: page.value("proof").startswith("proof 86=0x4d"), what="the other proof")
    assert "ticked" in page.text("tree-of"), "what was ticked"
    page.fill("check-root", page.text("root"))
    page.fill("check-proof", first)
    page.fill("other-proof", page.value("proof"))
    page.press("compare")
    page.until(lambda: "Of the chunks 1 of 7 differ" in page.text("answer"), what="the comparison")
    assert "the first is unlike, the second valid" in page.text("answer"), page.text("answer")
    assert [it.text.split()[0] for it in page.all("#differences tr.unlike")] == ["86"]


def a_link(page):
    """A link to a value and a part of it, which opens the same."""
    page.open()
    page.own_schema(CHOICE)
    page.choose("type", "B")
    page.press("random")
    root = page.good()
    page.select("/u")
    page.until(lambda: "path=%2Fu" in page.driver.current_url, what="the link")
    link = page.driver.current_url
    page.driver.get("about:blank")
    page.visit(link)
    page.good(root)
    page.until(lambda: page.is_selected("/u"), what="the part of the link")
    assert json.loads(page.value("text")) == json.loads(CHOICE) and page.value("type") == "B"


def a_wrong_schema(page):
    """Faults of a schema of one's own, each at its definition."""
    page.open()
    page.choose("schema", "own")
    empty = '["P",{"container":[]}]'
    for text, says, marks in [(f'{{"ssz":1,"types":[["A","uint8"],\n{empty}]}}', "S7", empty),
                              ('{"ssz":1,"types":[["A","unit8"]]}', "S5", '["A","unit8"]'),
                              ('{"ssz":1,\n"types":[}', "S1", "}"),
                              ('{"ssz":1,"types":[["A",{"vector":["byte",0]}]]}', "S6", '["A",{"vector":["byte",0]}]')]:
        page.fill("text", text)
        page.press("read-schema")
        page.until(lambda: says in page.text("schema-error"), what=says)
        assert page.inside("selectedText", "text") == marks, (text, page.inside("selectedText", "text"))
        assert not page.run("return document.getElementById('type').querySelectorAll('option').length")
    page.own_schema(PAIR)
    assert page.value("type") == "Pair"


TASKS = [a_first_root, where_a_fault_lies, a_file_in_and_out, json_both_ways, keys_alone, a_check, bytes_and_parts,
         edits_and_undo, a_picture, two_proofs, a_link, a_wrong_schema]
