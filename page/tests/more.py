"""What is not one user's task: all schemas, drawn values, a large one, a stop, a phone, labels, the network."""
import os
import random
import sys
import tempfile
import time

from browser import TOP, schema_texts
from selenium.webdriver.common.keys import Keys
from tasks import ATTESTATION, DENEB

# Not drawn at random: their values have megabytes.
LARGE = ("BeaconState", "Blob", "BlobSidecar", "HistoricalBatch")
LIST = '{"ssz":1,"types":[["L",{"list":["uint64",1099511627776]}]]}'
# Set in the environment: how many validators the large state has, and how many values are drawn.
VALIDATORS = int(os.environ.get("PAGE_VALIDATORS", 1 << 20))
DRAWN = int(os.environ.get("PAGE_DRAWN", 200))


def all_schemas(page):
    """Every fork and preset: the default state's root is the program's."""
    page.open()
    for fork, text in schema_texts().items():
        page.set_schema(fork)
        page.choose("type", "BeaconState")
        page.press("default")
        page.good(page.script(text, ["new V BeaconState", "root V"])[1].split()[1])
    return f"{len(schema_texts())} schemas"


def drawn_values(page):
    """Drawn values of all forks: the roots of the page and of the program."""
    draw, schemas, done = random.Random(1), schema_texts(), 0
    page.open()
    for k, (fork, text) in enumerate(schemas.items()):
        page.set_schema(fork)
        names = page.run("return explorer.app.types.filter((it) => it.isOwn).map((it) => it.name)")
        names = [it for it in names if it not in LARGE]
        for _ in range(DRAWN * (k + 1) // len(schemas) - DRAWN * k // len(schemas)):
            name = draw.choice(names)
            root, digits = page.later("drawn", name, draw.randrange(1, 2**31))
            native = page.native_root(text, name, bytes.fromhex(digits))
            assert native == f"root 0x{root}\n", (fork, name, native, root)
            done += 1
    return f"{done} values of {len(schemas)} schemas alike"


def narrow_module(page):
    """The module with a memory of 32 bits gives the same."""
    words = {"schema": DENEB, "type": "Checkpoint", "hex": "02" * 40}
    page.open(bits=32, **words)
    assert "memory of 32 bits" in page.text("status"), page.text("status")
    root = page.good()
    page.open(**words)
    assert "memory of 64 bits" in page.text("status"), page.text("status")
    page.good(root)


def a_stop(page):
    """Long work that a user stops, and a value after that."""
    page.open()
    page.own_schema(LIST)
    page.run("explorer.ask('bytes', {name: 'L', bytes: new Uint8Array(8000000)})")
    page.run("explorer.ask('measure', {times: 4000}).catch(() => {})")
    page.until(lambda: page.at("stop").is_displayed() and page.at("progress").is_displayed(), what="the button to stop")
    page.press("stop")
    page.until(lambda: not page.at("stop").is_displayed() and "Stopped" in page.text("value-error"), what="a new worker")
    page.give("01" + "00" * 7)
    page.good()


def a_phone(page):
    """A phone's width: nothing stands over the edge, and the tasks' first steps go by touch."""
    metrics = {"width": 390, "height": 844, "deviceScaleFactor": 1, "mobile": True}
    page.driver.execute_cdp_cmd("Emulation.setDeviceMetricsOverride", metrics)
    try:
        page.open()
        page.good()
        page.until(lambda: page.all("#picture rect"), what="the picture")
        wide = page.run("return document.documentElement.scrollWidth")
        assert wide <= 390, wide
        assert page.at("root").size["height"] > 20, "the root is to be seen"
        page.inside("prove", "/signature")
        page.until(lambda: "/signature" in page.text("chosen"), what="the choice")
    finally:
        page.driver.execute_cdp_cmd("Emulation.clearDeviceMetricsOverride", {})


def labels_and_contrast(page):
    """Each control has a name, ids stand once, and text stands out from its ground, in light and in dark."""
    for scheme in ("light", "dark"):
        feature = {"name": "prefers-color-scheme", "value": scheme}
        page.driver.execute_cdp_cmd("Emulation.setEmulatedMedia", {"features": [feature]})
        page.open(**ATTESTATION, path="/data/source/epoch")
        page.until(lambda: page.all("#picture rect"), what="the picture")
        time.sleep(0.3)
        assert not page.inside("faint"), (scheme, page.inside("faint"))
        assert not page.inside("nameless"), page.inside("nameless")
        page.give("00")
        page.bad("F1")
        time.sleep(0.3)
        assert not page.inside("faint"), (scheme, page.inside("faint"))
    page.driver.execute_cdp_cmd("Emulation.setEmulatedMedia", {"features": []})
    ids = page.run("return [...document.querySelectorAll('[id]')].map((it) => it.id)")
    assert len(ids) == len(set(ids)), [it for it in ids if ids.count(it) > 1]


def all_by_tab(page):
    """The key Tab reaches every pane."""
    page.open(**ATTESTATION)
    page.until(lambda: page.all("#picture rect"), what="the picture")
    page.run("document.activeElement.blur(); window.scrollTo(0, 0)")
    reached = set()
    for _ in range(60):
        page.keys(Keys.TAB)
        reached.add(page.run("const it = document.activeElement; return it.id || it.tagName"))
    wanted = {"schema", "type", "tab-hex", "hex-text", "read-hex", "default", "copy-link", "goto-path", "hex", "does",
              "literal", "do", "all", "proof", "check-root", "check", "TR"}
    assert wanted <= reached, wanted - reached


def nothing_from_elsewhere(page):
    """All that the page asked for is the server's of this machine."""
    page.open()
    page.good()
    asked = page.run("return performance.getEntriesByType('resource').map((it) => it.name)")
    assert asked and all(it.startswith((page.address, "data:")) for it in asked), asked
    return f"{len(asked)} files"


def speed(page):
    """Roots of 10 MB: the best of seven in the browser's module, and of the program with its start and the file."""
    says, data = [], random.Random(5).randbytes(10_000_000)
    validators = '{"ssz":1,"types":[["L",{"list":[{"vector":["byte",121]},1099511627776]}]]}'
    for what, schema, count in (("numbers", LIST, 10_000_000), ("vectors of 121 bytes", validators, 121 * 82_644)):
        page.open()
        page.own_schema(schema)
        with tempfile.NamedTemporaryFile() as it:
            it.write(data[:count])
            it.flush()
            page.at("file").send_keys(it.name)
            root = page.good()
            best = min(page.later("again", 7))
            took = []
            for _ in range(7):
                start = time.time()
                native = page.native("root", "s.json", "L", it.name, files={"s.json": schema})
                took.append(1000 * (time.time() - start))
            assert native == f"root {root}\n", native
        says.append(f"{what} {best:.0f} ms, by the program {min(took):.0f} ms")
    return ", ".join(says)


def state_of(count, folder):
    """A drawn state of deneb with so many validators, as bench/states.py draws it; the name of its file."""
    sys.path.append(f"{TOP}/bench")
    import states
    random.seed(5)
    with open(f"{folder}/state.ssz", "wb") as it:
        it.write(states.drawn(states.TYPES["BeaconState"], count))
    return f"{folder}/state.ssz"


def peak(pid):
    """The most memory, in MiB, that one of a process's descendants has had at a time: of Chromium, that of the page."""
    parents, most = {}, {}
    for own in (it for it in os.listdir("/proc") if it.isdigit()):
        try:
            with open(f"/proc/{own}/status", encoding="ascii", errors="replace") as it:
                said = dict(line.split(":", 1) for line in it)
        except OSError:
            continue
        parents[own], most[own] = said["PPid"].strip(), int(said.get("VmHWM", "0 kB").split()[0]) >> 10

    def is_below(own):
        return own == str(pid) or own in parents and is_below(parents[own])
    return max(most[it] for it in most if is_below(it))


class Clock:
    """How long acts take, and how much memory the module has behind them."""

    def __init__(self, page):
        self.page, self.said = page, []

    def time(self, what, act):
        start = time.time()
        act()
        mebibytes = self.page.run("return explorer.app.value.memory") >> 20
        self.said.append(f"{what} {time.time() - start:.1f} s ({mebibytes} MiB)")


def large_state(page):
    """A state of 2^20 validators: opened, looked at, edited and proved."""
    clock, last = Clock(page), f"/validators/{VALIDATORS - 1}/exit_epoch"

    def is_proved(path):
        has = lambda: path in page.text("chosen") and page.value("proof").startswith("proof ")
        page.until(has, 120, f"a proof of {path}")
    with tempfile.TemporaryDirectory() as folder:
        name = state_of(VALIDATORS, folder)
        native = page.native("root", "s.json", "BeaconState", name, files={"s.json": schema_texts()[DENEB]}).split()[1]
        page.open(schema=DENEB, type="BeaconState")
        page.inside("watch")
        page.at("file").send_keys(name)
        clock.time("opened", lambda: page.good(native))
        clock.time("the last validator", lambda: page.select(last))
        page.press("make-tree")
        clock.time("the tree and a first proof", lambda: is_proved(last))
        clock.time("another proof", lambda: (page.select("/balances/7"), is_proved("/balances/7")))
        page.until(lambda: page.value("literal").startswith('"'), what="the balance")
        clock.time("an edit", lambda: page.edit("set", '"32000000000"'))
        edited = page.text("root")
        clock.time("an undo", lambda: (page.press("undo"), page.good(native)))
        assert edited != native
        size = f"{os.path.getsize(name):,} bytes of {VALIDATORS:,} validators"
    pause, most = page.run("return longest"), peak(page.driver.service.process.pid)
    return f"{', '.join(clock.said)}; the page's longest pause {pause:.0f} ms, its process's peak {most} MiB; {size}"


CHECKS = [all_schemas, drawn_values, narrow_module, a_stop, a_phone, labels_and_contrast, all_by_tab,
          nothing_from_elsewhere, speed, large_state]
