"""The words of each script of the page: --help says what it does, unknown ones are refused, and nothing is done."""
import contextlib
import importlib.machinery
import importlib.util
import io
import os
import pathlib
import shutil
import socket
import subprocess
import sys
import tempfile

PAGE = pathlib.Path(__file__).resolve().parent.parent
PYTHON, NODE = sys.executable, shutil.which("node")
SCRIPTS = [[PYTHON, "build"], [PYTHON, "serve"], [PYTHON, "test"], [PYTHON, "module/retarget.py"], [PYTHON, "tests/compare_there.py"],
           [NODE, "tests/compare.mjs"], [NODE, "tests/units.mjs"]]
UNKNOWN = [["--no-such-word"], ["no-such-name"], ["units", "no-such-name"], ["--shots", "/no/such/folder"], ["-1"], ["--helpme"]]
#: What scripts would install, prove or build with. Each is replaced by one that keeps its words.
ACTORS = ("apt-get", "rt", "wasm-opt", "sudo")


def files():
    """The page's files, each with the time of its last change."""
    return {str(it): it.stat().st_mtime_ns for it in PAGE.rglob("*") if it.is_file()}


@contextlib.contextmanager
def watched():
    """An environment in which what acts only writes its words into a file; gives the environment and the file."""
    with tempfile.TemporaryDirectory() as folder:
        done = pathlib.Path(folder, "done")
        for name in ACTORS:
            own = pathlib.Path(folder, name)
            own.write_text(f'#!/bin/sh\necho {name} "$@" >> {done}\nexit 1\n')
            own.chmod(0o755)
        env = {**os.environ, "PATH": f"{folder}:{os.environ['PATH']}", "PYTHONDONTWRITEBYTECODE": "1"}
        yield {name: it for name, it in env.items() if name != "PAGE_TEST"}, done


def said(script, words, env):
    """The status of a script, and what it prints."""
    with tempfile.TemporaryDirectory() as folder:
        done = subprocess.run([script[0], PAGE / script[1], *words], cwd=folder, env=env, stdin=subprocess.DEVNULL, timeout=30,
                              stdout=subprocess.PIPE, stderr=subprocess.STDOUT, text=True)
    return done.returncode, done.stdout


def helped(env):
    """Each script says what it takes, of --help wherever it stands."""
    for script in SCRIPTS:
        status, text = said(script, ["--help"], env)
        assert status == 0 and "usage: " in text and len(text.split()) > 5, (script[1], status, text)
        assert "Traceback" not in text, (script[1], text)


def refused(env):
    """Each script refuses unknown words, by the status 2 and a line that has them."""
    for script in SCRIPTS:
        for words in UNKNOWN:
            status, text = said(script, words, env)
            assert status == 2 and "usage: " in text and "Traceback" not in text, (script[1], words, status, text)


def a_taken_port(env):
    """page/serve says that its port is taken, or that there is nothing to serve yet."""
    with socket.create_server(("127.0.0.1", 0)) as it:
        status, text = said(SCRIPTS[1], [str(it.getsockname()[1])], env)
    assert status == 1 and text.count("\n") == 1 and "page/" in text, (status, text)


def of_page_test():
    """page/test as a module, with a package that is nowhere."""
    loader = importlib.machinery.SourceFileLoader("page_test", str(PAGE / "test"))
    own = importlib.util.module_from_spec(importlib.util.spec_from_loader("page_test", loader))
    loader.exec_module(own)
    own.PACKAGES = {"no-such-package": "/no/such/place"}
    return own


def installs_only_if_told(env, done):
    """page/test with a package missing: it says which, and has it installed for the word --install alone."""
    own, path = of_page_test(), os.environ["PATH"]
    os.environ["PATH"] = env["PATH"]
    try:
        for words, calls in ([["units"], ""], [["--install", "units"], "apt-get update -qq\n"]):
            printed = io.StringIO()
            with contextlib.redirect_stdout(printed):
                try:
                    status = own.main(words)
                except SystemExit as why:
                    status = why.code
            assert status == own.LEFT_OUT and "no-such-package" in printed.getvalue(), (words, status, printed.getvalue())
            assert (done.read_text() if done.exists() else "") == calls, (words, done.read_text())
    finally:
        os.environ["PATH"] = path


def scripts():
    """--help and unknown words of each script, and nothing done for them; page/test installs only if told."""
    before = files()
    with watched() as (env, done):
        helped(env)
        refused(env)
        a_taken_port(env)
        assert not done.exists(), done.read_text()
        installs_only_if_told(env, done)
    assert files() == before, "files of the page have changed"
    return f"{len(SCRIPTS)} scripts, {len(UNKNOWN)} unknown words each"
