"""Bad input of every kind: there is a word about each, the value stays as it was, and the page goes on."""
import time

from browser import PAGE
from tasks import CHOICE, DENEB

FAULTS = [("Numbers", "00", "F1"), ("Numbers", "00" * 65, "F2"), ("Numbers", "00" * 63 + "02", "F3"),
          ("Small", "0000 05000000", "F4"), ("Small", "0000 06000000 0102030405", "F8"), ("Lists", "ff" * 20, "F4"),
          ("Deep", "0c000000 ffffffff 00000000", "F5"), ("Bits", "ffff", "F1"), ("Vectors", "00" * 95, "F4"),
          ("Empty", "00" * 8, "F8"), ("Empty", "00", "F7"), ("Choice", "", "F1"), ("Choice", "07", "F11"),
          ("Choice", "0000", "F2"), ("Bits", "00f8 0b000000 0c000000 00 0101", "F9"),
          ("Bits", "0000 0b000000 0c000000 00 0001", "F10"), ("Bits", "0000 0b000000 0a000000 00 0101", "F6")]
JSON = [("", "J1"), ("{", "J1"), ("[" * 5000, "J1"), ('"a', "J1"), ("[1,]", "J1"), ("nul", "J1"), ("\ufeff{}", "J1"),
        ("{}", "J6"), ("[]", "J2"), ("null", "J2"), ('{"a":1,"b":"0x"}', "J2"), ('{"a":"1","b":"0x1"}', "J3"),
        ('{"a":"70000","b":"0x"}', "J4"), ('{"a":"1","b":"0x0102030405"}', "J5"), ('{"a":"1","b":"0x","c":1}', "J6")]
SCHEMAS = ["", "{", "[]", "null", '{"ssz":1}', '{"ssz":1,"types":{}}', '{"ssz":1,"types":[1]}', "[" * 5000,
           '{"ssz":1,"types":[["A"]]}', '{"ssz":1,"types":[["A",{"list":["A",1]}]]}']
EDITS = [("/u", "set", "hex", "05", "F11"), ("/u", "set", "json", "[9,null]", "J7"),
         ("/bits", "append", "hex", "02", "F3"), ("/bits", "set", "json", '"2"', "J3"),
         ("/list", "append", "json", '[1,"x"]', "J3"),
         ("/list", "set", "hex", "0g", "no hexadecimal digit"), ("/u", "choose", "hex", "00", "F1")]
PATHS = ["x", "/", "//", "/list/0", "/u/#1", "/u/#0/a", "/bits/99999999999999999999", "/list/-1", "/nothing", "123456"]
FORK = {"schema": DENEB, "type": "Fork"}
LINKS = [{"schema": "no/such"}, {"schema": DENEB, "type": "NoSuch", "hex": "00"}, {**FORK, "hex": "0"}, {"bits": "7"},
         {**FORK, "z": "!!!"}, {**FORK, "z": "AAAA"}, {**FORK, "hex": "00" * 16, "path": "/no/way"},
         {"text": "{", "type": "X", "hex": "00"}]


def bad_bytes(page):
    """Bytes of every first fault, and digits that are none."""
    with open(f"{PAGE}/tests/forms.json", encoding="utf-8") as it:
        page.open(text=it.read(), type="Numbers")
    for name, digits, code in FAULTS:
        page.choose("type", name)
        page.give(digits)
        page.bad(f"No encoding of {name}: {code} ")
        assert not page.all("#parts tr[data-path]") and not page.value("proof")
    assert len({code for _, _, code in FAULTS}) == 11
    digits = ("xyz", "0x1", "0g", "12 3")
    for own in digits:
        page.give(own)
        page.until(lambda: page.at("value-error").is_displayed(), what=f"a word about {own}")
    return f"{len(FAULTS) + len(digits)} inputs"


def bad_texts(page):
    """JSON and schema texts that are none."""
    small = '["Small",{"container":[["a","uint16"],["b",{"list":["uint8",4]}]]}]'
    page.open(text=f'{{"ssz":1,"types":[{small}]}}', type="Small")
    page.press("tab-json")
    for text, code in JSON:
        page.fill("json", text)
        page.press("read-json")
        page.until(lambda: page.text("value-error").startswith(code), what=f"{code} of {text[:20]}")
    page.fill("json", '{ "b": "0x0102", "a": "5" }')
    page.press("read-json")
    page.good()
    for text in SCHEMAS:
        page.fill("text", text)
        page.press("read-schema")
        page.until(lambda: page.text("schema-error").startswith("S"), what=f"a fault of {text[:20]}")
    page.own_schema('{"ssz":1,"types":[["_form0",{"container":[["x",{"list":["uint8",2]}]]}]]}')
    return f"{len(JSON) + len(SCHEMAS)} inputs"


def bad_proofs(page):
    """Proofs and roots that are none."""
    page.open(schema=DENEB, type="Checkpoint", hex="01" * 40, path="/epoch")
    page.until(lambda: page.value("proof").startswith("proof 2="), what="a proof")
    good, root = page.value("proof"), page.text("root")
    leaf = good.split()[1]
    proofs = ["", "proof", good.upper(), good.replace(" / ", " "), f"{good} {leaf}", f"proof {leaf} {leaf} / ",
              "proof 1=0x / ", good.replace("2=", "0="), good.replace("2=", "9" * 40 + "="), f"{good}\n{good}",
              good.replace(" ", "  ")]
    for proof, own in [*((it, root) for it in proofs), (good, "0x12"), (good, ""), (good, "zz" * 32)]:
        page.fill("check-root", own)
        page.fill("check-proof", proof)
        page.fill("other-proof", good)
        page.press("check")
        page.until(lambda: page.text("answer").startswith(("Bad: ", "A root is")), what=f"bad, of {proof[:30]}")
        page.press("compare")
    return f"{len(proofs) + 3} inputs"


def bad_edits(page):
    """Edits that the library refuses, and paths that lead nowhere; the value stays as it was."""
    page.open(text=CHOICE, type="B")
    page.press("default")
    root = page.good()
    for path, does, how, text, says in EDITS:
        page.select(path)
        page.written(does, text, how)
        page.until(lambda: says in page.text("edit-error"), what=f"{says} of {does} {path}")
    for path in PATHS:
        page.go_to(path)
        time.sleep(0.1)
    page.until(lambda: page.text("goto-error"), what="a word about a path")
    assert page.text("root") == root
    return f"{len(EDITS) + len(PATHS)} inputs"


def bad_links(page):
    """Links that are damaged: the page opens, with a word where there is one to say."""
    for words in LINKS:
        page.open(**words)
    return f"{len(LINKS)} inputs"


BAD = [bad_bytes, bad_texts, bad_proofs, bad_edits, bad_links]
