"""Runs of the program, and the form in which crates/program_rows reads them."""
import os

TOP = os.path.join(os.path.dirname(os.path.abspath(__file__)), "..", "..")
ETHEREUM = os.path.join(TOP, "examples", "ethereum")
USAGE = ("usage: ssz root SCHEMA TYPE FILE | run SCHEMA SCRIPT"
         " | weave SCHEMA BASE ORDER SCRIPT.. | verify ROOT FILE | work SCHEMA TYPE SEED EDITS"
         " | part SCHEMA TYPE FILE PATH | partial SCHEMA TYPE PROOF SCRIPT | clash FILE FILE")


def example(name):
    """The text of a file of examples/ethereum."""
    with open(os.path.join(ETHEREUM, name), encoding="ascii") as file:
        return file.read()


class Shared:
    """A content that lies in data/ once."""

    def __init__(self, name):
        self.name = name


class Long:
    """A content that is a byte longer than a schema, a script or a proof may be."""


LONG = Long()


def told(name, content):
    """The lines of a file of a run."""
    if content is LONG:
        return "--- %s long" % name
    if isinstance(content, Shared):
        return "--- %s @%s" % (name, content.name)
    if isinstance(content, bytes):
        return "--- %s %s" % (name, content.hex())
    text = "--- %s\n%s" % (name, content)
    if "\n=== " in text or text.count("\n--- "):
        raise ValueError("a content has a line of the form in it: %r" % text)
    return text if content else "--- %s" % name


class Run:
    """A run and what is wanted of it.

    The words behind the program's name; the contents of files by their names, a text, bytes,
    `Shared` or `LONG`; the status; the text that the sink takes; what files of these names hold
    behind it, None of one that is not there; the calls of the files and of the sink that fail.
    """

    def __init__(self, hasher, words, files, status, taken, saved=None, fails=(0, 0)):
        self.hasher, self.words, self.files, self.fails = hasher, words, files, fails
        self.status, self.taken, self.saved = status, taken, saved or {}

    def text(self):
        words = [self.hasher, *map(str, self.fails), *self.words]
        gap = "\t" if any(" " in word for word in words) else " "
        lines = ["=== " + gap.join(words)]
        lines += [told(name, content) for name, content in self.files.items()]
        return "\n".join(lines + ["--- %s ?" % name for name in self.saved])

    def wanted(self):
        saved = "".join("no %s\n" % name if content is None else "%s 0x%s\n" % (name, content.hex())
                        for name, content in self.saved.items())
        return "=== %d\n%s|\n%s" % (self.status, self.taken, saved)


def lines_of(lines):
    return "".join(line + "\n" for line in lines)
