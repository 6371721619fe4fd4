"""The page in headless Chromium, as a user has it: what is to be seen, clicks and keys."""
import contextlib
import importlib.machinery
import importlib.util
import json
import os
import subprocess
import sys
import tempfile
import threading
import time
import urllib.parse

from selenium import webdriver
from selenium.common.exceptions import StaleElementReferenceException
from selenium.webdriver import ActionChains
from selenium.webdriver.chrome.options import Options
from selenium.webdriver.chrome.service import Service
from selenium.webdriver.common.by import By
from selenium.webdriver.support.ui import Select

HERE = os.path.dirname(os.path.abspath(__file__))
PAGE = os.path.dirname(HERE)
TOP = os.path.dirname(PAGE)

with open(f"{HERE}/inside.js", encoding="utf-8") as file:
    INSIDE = file.read()


def script_of(name):
    """A script of page/ as a module."""
    sys.dont_write_bytecode = True
    loader = importlib.machinery.SourceFileLoader(name, f"{PAGE}/{name}")
    script = importlib.util.module_from_spec(importlib.util.spec_from_loader(name, loader))
    loader.exec_module(script)
    return script


def served():
    """The server of page/serve on a free port, and its address."""
    it = script_of("serve").server(0)
    threading.Thread(target=it.serve_forever, daemon=True).start()
    return it, f"http://127.0.0.1:{it.server_port}/"


def chromium(width=1500, height=1180):
    """A browser. The sandbox of Chromium is not there for root, as tests often are."""
    options = Options()
    for it in ("--headless=new", "--no-sandbox", "--disable-gpu", "--disable-dev-shm-usage", "--lang=en",
               f"--window-size={width},{height}"):
        options.add_argument(it)
    options.set_capability("goog:loggingPrefs", {"browser": "ALL"})
    driver = webdriver.Chrome(options=options, service=Service("/usr/bin/chromedriver"))
    driver.set_script_timeout(120)
    return driver


def schema_texts():
    """The texts of the schemas by their names, as page/build has them from examples/ethereum."""
    with open(f"{PAGE}/out/schemas.json", encoding="utf-8") as it:
        return json.load(it)


class Page:
    """The page at an address, and the program that answers are compared with."""

    def __init__(self, driver, address, program):
        self.driver, self.address, self.program = driver, address, program

    def open(self, **words):
        self.driver.get("about:blank")
        self.visit(f"{self.address}#{urllib.parse.urlencode(words)}")

    def visit(self, link):
        self.driver.get(link)
        self.until(lambda: self.run("return document.body.dataset.ready"), what="the page")
        assert self.run("return document.body.dataset.ready") == "true", self.text("status")
        self.run(INSIDE)

    def run(self, code, *given):
        return self.driver.execute_script(code, *given)

    def inside(self, name, *given):
        """What a function of inside.js gives."""
        return self.run(f"return inside.{name}(...arguments)", *given)

    def later(self, name, *given):
        """The same of one that ends by a call of its last argument."""
        return self.driver.execute_async_script(f"inside.{name}(...arguments)", *given)

    def ask(self, op, **given):
        """What the worker answers."""
        return self.later("ask", op, given)

    def until(self, holds, seconds=30, what=""):
        """Waits. Rows of the table are made anew at each change."""
        end = time.time() + seconds
        while True:
            with contextlib.suppress(StaleElementReferenceException):
                if holds():
                    return
            assert time.time() < end, f"waited {seconds} s for {what or 'something'}"
            time.sleep(0.03)

    def at(self, name):
        return self.driver.find_element(By.ID, name)

    def all(self, selector):
        return self.driver.find_elements(By.CSS_SELECTOR, selector)

    def text(self, name):
        return self.run("return document.getElementById(arguments[0]).textContent", name)

    def value(self, name):
        return self.run("return document.getElementById(arguments[0]).value", name)

    def fill(self, name, text):
        self.inside("fill", name, text)

    def press(self, name):
        self.run("arguments[0].scrollIntoView({block: 'center'})", self.at(name))
        self.at(name).click()

    def choose(self, name, value):
        Select(self.at(name)).select_by_value(value)

    def keys(self, *keys):
        for key in keys:
            ActionChains(self.driver).send_keys(key).perform()
            time.sleep(0.05)

    def row(self, path):
        return self.inside("row", path)

    def is_selected(self, path):
        row = self.row(path)
        return row is not None and row.get_attribute("aria-selected") == "true"

    def go_to(self, text):
        """Writes a path, or the number of a byte, into the box above the table."""
        self.fill("goto-path", text)
        self.run("document.getElementById('goto').requestSubmit()")

    def select(self, path):
        """Goes to a part, and waits for what the other panes say."""
        self.go_to(path)
        self.until(lambda: self.run("return explorer.app.row?.path") == path.rstrip("/"), what=f"the part {path}")
        self.until(lambda: path in self.text("facts"), what=f"what there is to say of {path}")

    def written(self, does, text, how="json", option="1"):
        """Writes an edit of the selected part into its form, and does it."""
        self.until(lambda: self.at("edit").is_displayed(), what="the edits")
        self.choose("does", does)
        if does == "choose":
            self.choose("option", option)
        if does != "pop":
            self.choose("how", how)
            self.ask("at", position=0)
            time.sleep(0.1)
            self.fill("literal", text)
        self.press("do")

    def edit(self, does, text, how="json"):
        """The same, and waits for the next version."""
        count = "return explorer.app.value?.versions.length"
        before = self.run(count)
        self.written(does, text, how)
        self.until(lambda: self.run(count) == before + 1 or self.text("edit-error"), what="the edit")
        assert not self.text("edit-error"), self.text("edit-error")

    def good(self, root=None):
        """Waits for a value, with this root where one is given; its root."""
        self.until(lambda: self.at("verdict").get_attribute("class") == "good", 60, "an encoding")
        if root is not None:
            self.until(lambda: self.text("root") == root, 60, f"the root {root}")
        return self.text("root")

    def bad(self, says):
        self.until(lambda: says in self.text("verdict-head"), what=says)

    def own_schema(self, text):
        """Reads a schema text of the user's own."""
        self.choose("schema", "own")
        self.fill("text", text)
        self.press("read-schema")
        first = json.loads(text)["types"][0][0]
        self.until(lambda: self.run("return explorer.app.types[0]?.name") == first, what="the schema")

    def set_schema(self, name):
        """Chooses a schema, and waits for its types."""
        self.run("explorer.app.types = []")
        self.choose("schema", name)
        self.until(lambda: self.run("return explorer.app.types.length && !explorer.app.value"), what=name)

    def give(self, digits):
        self.fill("hex-text", digits)
        self.press("read-hex")

    def native(self, *words, files=None):
        """What the program prints; of words that name files, these stand in its folder."""
        with tempfile.TemporaryDirectory() as folder:
            for name, data in (files or {}).items():
                with open(f"{folder}/{name}", "wb") as it:
                    it.write(data if isinstance(data, bytes) else data.encode())
            return subprocess.run([self.program, *words], cwd=folder, capture_output=True, text=True).stdout

    def native_root(self, schema, name, data):
        """The program's line on bytes as a value of a type."""
        return self.native("root", "s.json", name, "v", files={"s.json": schema, "v": data})

    def script(self, schema, lines):
        """The replies of the program to the lines of a script."""
        files = {"s.json": schema, "script": "\n".join(lines) + "\n"}
        return self.native("run", "s.json", "script", files=files).splitlines()

    def logs(self):
        return [it["message"][:300] for it in self.driver.get_log("browser") if it["level"] in ("SEVERE", "WARNING")]
