"""Compares a module with the proved program in headless Chromium, for where no node runs it.

The page tests/compare.html does what tests/compare.mjs does in node, and asks this server for what the program prints."""
import argparse
import functools
import http.server
import json
import os
import subprocess
import sys
import tempfile
import threading
import time


class Handler(http.server.SimpleHTTPRequestHandler):
    """The files of page/, the module and the schemas, and at /native what the program prints in a folder."""
    extensions_map = {".html": "text/html", ".mjs": "text/javascript", "": "application/octet-stream"}

    def __init__(self, *words, module, ssz, schemas, folder, **more):
        self.module, self.ssz, self.schemas, self.folder = module, ssz, schemas, folder
        super().__init__(*words, **more)

    def translate_path(self, path):
        own = {"/module.wasm": self.module, "/schemas.json": self.schemas}
        return own.get(path) or super().translate_path(path)

    def do_POST(self):
        asked = json.loads(self.rfile.read(int(self.headers["Content-Length"])))
        for name, content in asked["files"].items():
            with open(f"{self.folder}/{os.path.basename(name)}", "wb") as it:
                it.write(bytes.fromhex(content["hex"]) if "hex" in content else content["text"].encode())
        printed = subprocess.run([self.ssz, *asked["words"]], cwd=self.folder, stdout=subprocess.PIPE).stdout
        self.send_response(200)
        self.send_header("Content-Length", str(len(printed)))
        self.end_headers()
        self.wfile.write(printed)

    def log_message(self, *_):
        pass


def compared(given):
    """Whether the module is like the program; what the page says of it is printed."""
    from browser import PAGE, chromium
    with tempfile.TemporaryDirectory() as folder:
        own = {name: os.path.abspath(getattr(given, name)) for name in ("module", "ssz", "schemas")}
        handler = functools.partial(Handler, folder=folder, directory=PAGE, **own)
        server = http.server.ThreadingHTTPServer(("127.0.0.1", 0), handler)
        threading.Thread(target=server.serve_forever, daemon=True).start()
        driver = chromium()
        page = f"http://127.0.0.1:{server.server_port}/tests/compare.html"
        driver.get(f"{page}?values={given.values}&seed={given.seed}")
        while not driver.title.startswith(("alike: ", "unlike: ")):
            time.sleep(0.2)
        good = driver.title.startswith("alike: ")
        print(driver.title.removeprefix("alike: "))
        driver.quit()
        server.shutdown()
    return good


def main():
    words = argparse.ArgumentParser(prog="compare_there.py", description=__doc__)
    for name in ("module", "ssz", "schemas"):
        words.add_argument(name, metavar=name.upper())
    words.add_argument("values", metavar="VALUES", nargs="?", type=int, default=60)
    words.add_argument("seed", metavar="SEED", nargs="?", type=int, default=7)
    given = words.parse_args()
    for name in ("module", "ssz", "schemas"):
        if not os.path.isfile(getattr(given, name)):
            words.error(f"{getattr(given, name)} is no file")
    return 0 if compared(given) else 1


sys.exit(main())
