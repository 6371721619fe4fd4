"""How the page opens: as a file, without its module, at each width, with today's fork; and whether it speaks for itself."""
import contextlib
import pathlib
import shutil
import tempfile
import threading

from browser import PAGE, script_of
from tasks import ATTESTATION

#: From this width on there are three columns.
THREE = 1200
WIDTHS = (1000, 1100, THREE, 1300, 1440, 1900)
STATE = "minimal/fulu"


@contextlib.contextmanager
def sized(page, width, height=900):
    """The page at a width."""
    metrics = {"width": width, "height": height, "deviceScaleFactor": 1, "mobile": False}
    page.driver.execute_cdp_cmd("Emulation.setDeviceMetricsOverride", metrics)
    try:
        yield
    finally:
        page.driver.execute_cdp_cmd("Emulation.clearDeviceMetricsOverride", {})


def not_ready(page, *says):
    """The middle of the page says so, to be seen at once, and no control of it can be used."""
    page.until(lambda: page.at("notice").is_displayed() and says[0] in page.at("notice").text, what=f"{says[0]} in the middle")
    seen = page.at("notice").text
    assert all(it in seen for it in says), seen
    left, right, top = page.run("const it = document.getElementById('notice').getBoundingClientRect(), w = innerWidth;"
                                "return [it.left / w, it.right / w, it.top]")
    assert left < 0.5 < right and 0 < top < 300, (left, right, top)
    on = page.run("return [...document.querySelectorAll('main :is(button, select, textarea, input)')].filter((it) => "
                  "!it.matches(':disabled')).map((it) => it.id)")
    assert not on, on
    return seen


def opened_as_a_file(page):
    """A double click on index.html: the page says that it must be served, and how."""
    with sized(page, 1300):
        page.driver.get("about:blank")
        page.driver.get(pathlib.Path(f"{PAGE}/index.html").as_uri())
        not_ready(page, "page/serve", "page/build", "Opened as a file")
    page.logs()


def without_its_module(page):
    """Served before page/build: the page says what is missing, and how it is made."""
    with tempfile.TemporaryDirectory() as folder, sized(page, 1300):
        shutil.copytree(PAGE, f"{folder}/page", ignore=shutil.ignore_patterns("out"))
        server = script_of("serve").server(0, f"{folder}/page")
        threading.Thread(target=server.serve_forever, daemon=True).start()
        try:
            page.driver.get(f"http://127.0.0.1:{server.server_port}/")
            page.until(lambda: page.run("return document.body.dataset.ready"), what="the page")
            not_ready(page, "page/out/ssz.wasm was not built", "page/build", "page/serve")
            assert page.text("status") == "not ready", page.text("status")
        finally:
            server.shutdown()
    page.logs()


def ready(page):
    """With its module nothing of that is to be seen, and the controls can be used."""
    page.open()
    page.good()
    assert not page.at("notice").is_displayed()
    assert page.at("read-hex").is_enabled() and page.at("check").is_enabled()


def todays_fork(page):
    """The page begins with the newest fork of mainnet."""
    page.open()
    page.good()
    names = page.run("return [...document.querySelectorAll('#schema option')].map((it) => it.value)")
    newest = script_of("build").FORKS[-1]
    assert page.value("schema") == f"mainnet/{newest}" == [it for it in names if it.startswith("mainnet/")][-1]


def lines_of(page, name):
    """On how many lines the text of an element stands."""
    return page.run("const it = document.createRange(); it.selectNodeContents(document.getElementById(arguments[0]));"
                    "return new Set([...it.getClientRects()].map((own) => Math.round(own.top))).size", name)


def cut_cells(page):
    """Names of parts and types that are cut, and how much room the values beside them have."""
    cut = page.run("return [...document.querySelectorAll('#parts tbody tr')].flatMap((row) => [...row.cells].slice(0, 2))"
                   ".filter((it) => it.scrollWidth > it.clientWidth).map((it) => it.textContent)")
    return cut, page.run("return document.querySelector('#parts tbody td.value').clientWidth")


def at_each_width(page):
    """No width scrolls sideways, the root stands on one line, what proves is in sight, and names are cut for want of room alone."""
    for width in WIDTHS:
        with sized(page, width):
            page.open(**ATTESTATION, path="/data/source/epoch")
            page.until(lambda: page.all("#picture rect"), what="the picture")
            wide = page.run("return document.documentElement.scrollWidth - document.documentElement.clientWidth")
            assert wide <= 0, (width, "scrolls sideways by", wide)
            assert lines_of(page, "root") == 1, (width, "lines of the root", lines_of(page, "root"))
            top = page.run("return document.getElementById('picture').getBoundingClientRect().top")
            assert top < 1000, (width, "the picture begins at", top)
            cut, room = cut_cells(page)
            assert not cut or room <= 84, (width, "cut with room beside", cut, room)
            assert not cut or width < THREE, (width, "cut", cut)
            scrolls = page.run("const it = document.getElementById('scroll'); return it.scrollWidth - it.clientWidth")
            assert scrolls <= 0, (width, "the table scrolls sideways by", scrolls)
    return f"{', '.join(map(str, WIDTHS))} pixels"


def head_of_the_table(page):
    """The table's head stays in sight where its lines are scrolled."""
    page.open(schema=STATE, type="BeaconState")
    page.press("default")
    page.good()
    page.select("/finalized_checkpoint/root")
    head, box = page.run("document.getElementById('scroll').scrollTop = 400;"
                         "return ['#parts thead tr', '#scroll'].map((it) => document.querySelector(it).getBoundingClientRect().top)")
    assert page.run("return document.getElementById('scroll').scrollTop") > 100 and abs(head - box) < 3, (head, box)


def one_base(page):
    """The numbers of bytes are decimal in the table, the encoding, the parts and the faults."""
    page.open(**ATTESTATION, path="/data/source/epoch")
    page.until(lambda: page.all("#hex .part"), what="the bytes")
    heads = page.run("return [...document.querySelectorAll('#hex [role=rowheader]')].map((it) => it.textContent.trim())")
    assert heads[:4] == ["+", "0", "16", "32"], heads[:4]
    columns = page.run("return [...document.querySelectorAll('#hex [role=columnheader]')].map((it) => it.textContent.trim())")
    assert columns == [str(i) for i in range(16)], columns
    assert page.inside("cells", "/data/source/epoch")[3] == "✓ 52–59" and "52 to 59" in page.text("facts")
    first = page.run("const it = document.querySelector('#hex .part'), row = it.parentElement; return"
                     " [row.firstChild.textContent, [...row.children].indexOf(it) - 1]")
    assert int(first[0]) + first[1] == 52, first


def says_for_itself(page):
    """The mark of the library is told before its first use, and controls are named by what they do."""
    page.open(**ATTESTATION)
    page.good()
    tells = page.run("const [it, table] = ['tick', 'parts'].map((name) => document.getElementById(name));"
                     "return [it.textContent, it.compareDocumentPosition(table)]")
    assert tells[0] == "✓ confirmed by the library" and tells[1] & 4, tells
    assert page.at("tick").is_displayed()
    head = page.run("return document.querySelector('header p').textContent")
    assert head.split()[:3] == ["A", "proved", "library"], head
    assert page.text("clear") == "Untick all"


def roles_in_the_picture(page):
    """A proof of a state with lists: each box says by a word and by its shape what it is, and names what lists mix in."""
    page.open(schema=STATE, type="BeaconState")
    page.press("default")
    page.good()
    page.select("/balances")
    for _ in range(2):
        page.edit("append", '"32000000000"')
    page.select("/balances/1")
    page.until(lambda: "balances/1" in page.text("picture"), what="the picture of one leaf")
    apart = [page.run(OVERLAPS)]
    for path in ("/balances/1", "/slot"):
        page.select(path)
        page.inside("prove", path)
    page.until(lambda: page.text("chosen").startswith("2 leaves"), what="the proof")
    page.press("all")
    page.run("document.querySelector('#nodes').open = true")
    page.until(lambda: page.all("#nodes tbody tr"), what="the table")
    in_table = sorted(it[1] for it in page.inside("nodes"))
    boxes = page.run("return [...document.querySelectorAll('#picture g')].map((it) => [it.querySelector('.is').textContent,"
                     " it.classList[0], getComputedStyle(it.querySelector('rect')).rx])")
    assert sorted(it[0] for it in boxes) == in_table and set(in_table) == {"root", "computed", "leaf", "helper"}, in_table
    assert len({it[2] for it in boxes}) == 3, "each kind has a shape of its own"
    named = {it[2]: it[1] for it in page.inside("nodes") if it[2]}
    assert named["length"] == "helper" and named["elements"] == "computed" and named["balances/1"] == "leaf", named
    assert "Each computed node is the hash of the two nodes below it" in page.text("tree-how")
    apart.append(page.run(OVERLAPS))
    page.press("wide")
    apart.append(page.run(OVERLAPS))
    page.press("wide")
    assert len({it[0] for it in apart}) == 3 and not any(it[1] for it in apart), apart
    return f"{len(boxes)} boxes"


#: How wide boxes are, and texts of a box that run into one another, or out of it.
OVERLAPS = """return [document.querySelector('#picture rect').getBBox().width, [...document.querySelectorAll('#picture g')].flatMap((box) => {
  const texts = [...box.querySelectorAll('text')].filter((it) => it.textContent).map((it) => [it.textContent, it.getBBox()]);
  const whole = box.querySelector('rect').getBBox();
  const out = texts.filter(([, it]) => it.x < whole.x || it.x + it.width > whole.x + whole.width);
  const clash = texts.filter(([, one], i) => texts.some(([, other], k) => i < k && one.x < other.x + other.width + 2
    && other.x < one.x + one.width + 2 && one.y + 3 < other.y + other.height && other.y + 3 < one.y + one.height));
  return [...out, ...clash].map(([text]) => text);
})];"""


OPENED = [opened_as_a_file, without_its_module, ready, todays_fork, at_each_width, head_of_the_table, one_base, says_for_itself,
          roles_in_the_picture]
