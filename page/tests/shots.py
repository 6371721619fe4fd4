"""The screenshots of docs/page.md and the sizes in it: page/test --shots FOLDER."""
import gzip
import os
import re
import time

from browser import PAGE, Page, chromium, served
from png import small

FULU = "mainnet/fulu"
#: What stands between these lines of page.md is written here.
SIZES = re.compile(r"(?s)(?<=<!-- sizes -->\n).*?(?=<!-- end of sizes -->)")


def value(page):
    """A value, one part of it, the picture of two parts and their proof."""
    page.open(schema=FULU, type="Attestation", seed=4, path="/data/source/epoch")
    page.until(lambda: page.all("#picture rect"), what="the picture")
    for path in ("/data/slot", "/data/source/epoch"):
        page.inside("prove", path)
    page.until(lambda: "/data/slot, /data/source/epoch" in page.text("chosen"), what="the proof")
    page.press("to-check")
    page.until(lambda: page.text("answer").startswith("Valid"), what="valid")


def fault(page):
    """A first fault, with its byte."""
    page.open(schema=FULU, type="SignedBeaconBlock", seed=6)
    page.good()
    bad = bytearray.fromhex(page.value("hex-text"))
    offset = page.ask("part", path="/message/body/attestations/0")["offset"]["at"]
    bad[offset:offset + 4] = (2 ** 20).to_bytes(4, "little")
    page.give(bad.hex())
    page.bad("F")
    page.until(lambda: page.all("#hex .fault"), what="the byte")


def edits(page):
    """Edits of a state, each with its root, and a picture with trees of zeros."""
    page.open(schema=FULU, type="BeaconState")
    page.press("default")
    page.good()
    for path, does, text in (("/balances", "append", '"32000000000"'), ("/slot", "set", '"7"'),
                             ("/balances/0", "set", '"31000000000"')):
        page.select(path)
        page.edit(does, text)
    page.select("/balances/0")
    page.until(lambda: "levels whose" in page.text("picture"), what="the picture")


def leaves(page):
    """The branches of five parts to the root, across the page."""
    page.open(schema="minimal/fulu", type="BeaconState")
    page.press("default")
    page.good()
    page.select("/validators")
    page.edit("append", page.ask("written", path="/validators", does="append", selector=0, how="json"))
    page.select("/validators/0/slashed")
    for path in ("/slot", "/validators/0/pubkey", "/validators/0/slashed", "/validators/#len", "/finalized_checkpoint/epoch"):
        if not page.row(path):
            page.select(path)
        page.inside("prove", path)
    page.until(lambda: page.text("chosen").startswith("5 leaves"), what="the proof")
    page.press("wide")
    page.run("document.getElementById('h-tree').scrollIntoView()")


#: Each picture: its name, what is done for it, light or dark, width and height, and whether it is a phone's.
SHOTS = [("page", value, "light", 1440, 1230, False), ("page_proof", leaves, "light", 1100, 1400, False),
         ("page_fault", fault, "light", 1200, 900, False), ("page_dark", edits, "dark", 1440, 1100, False),
         ("page_phone", value, "dark", 390, 1500, True)]


def sizes():
    """The table of the modules' sizes."""
    rows = ["| Module | Bytes | By gzip |", "|---|---:|---:|"]
    for name in ("ssz.wasm", "ssz32.wasm"):
        with open(f"{PAGE}/out/{name}", "rb") as it:
            module = it.read()
        rows.append(f"| `{name}` | {len(module):,} | {len(gzip.compress(module, mtime=0)):,} |")
    return "\n".join(rows) + "\n"


def numbers(table):
    return [int(it.replace(",", "")) for it in re.findall(r"[\d,]{5,}", table)]


def sizes_are_told():
    """The sizes in docs/page.md are within a twentieth those of the modules: else page/test --shots docs writes them anew."""
    with open(f"{PAGE}/../docs/page.md", encoding="utf-8") as it:
        told, made = numbers(SIZES.search(it.read())[0]), numbers(sizes())
    assert len(told) == len(made) and all(abs(a - b) * 20 <= b for a, b in zip(told, made)), (told, made)
    return f"{made[0]:,} and {made[2]:,} bytes"


def write_sizes(folder):
    """Writes the sizes into the folder's page.md, if it has one."""
    name = f"{folder}/page.md"
    if not os.path.exists(name):
        return
    with open(name, encoding="utf-8") as it:
        text = SIZES.sub(sizes(), it.read())
    with open(name, "w", encoding="utf-8") as it:
        it.write(text)
    print(f"{name}: the sizes", flush=True)


def main(folder):
    write_sizes(folder)
    server, address = served()
    for name, act, scheme, width, height, phone in SHOTS:
        driver = chromium(width, height)
        page, feature = Page(driver, address, None), {"name": "prefers-color-scheme", "value": scheme}
        metrics = {"width": width, "height": height, "deviceScaleFactor": 1, "mobile": phone}
        driver.execute_cdp_cmd("Emulation.setEmulatedMedia", {"features": [feature]})
        driver.execute_cdp_cmd("Emulation.setDeviceMetricsOverride", metrics)
        act(page)
        if act is not leaves:
            page.run("window.scrollTo(0, arguments[0])", 620 if phone else 0)
        time.sleep(0.6)
        with open(f"{folder}/{name}.png", "wb") as it:
            it.write(small(driver.get_screenshot_as_png()))
            print(f"{it.name}: {it.tell()} bytes", flush=True)
        driver.quit()
    server.shutdown()
    return 0
