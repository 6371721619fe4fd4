"""The drivers of C and Rust, built against an installation and a tree."""

from __future__ import annotations

import os
import shutil
import subprocess
from pathlib import Path

HERE = Path(__file__).resolve().parent
SANITIZED = ["-fsanitize=address,undefined", "-fno-sanitize-recover=all", "-fno-omit-frame-pointer"]
CARGO = """[package]
name = "door"
version = "0.1.0"
edition = "2021"

[[bin]]
name = "door"
path = "{source}"

[dependencies]
ssz = {{ path = "{crate}" }}

[profile.release]
debug-assertions = true
overflow-checks = true
"""


class NotBuilt(Exception):
    """What could not be built, and what the compiler said."""


def _ran(words: list[str], what: str, **environment: str) -> None:
    done = subprocess.run(words, capture_output=True, text=True, env={**os.environ, **environment})
    if done.returncode:
        raise NotBuilt(f"{what}: {done.stderr[-3000:]}")


def _is_sanitizing(room: Path) -> bool:
    """Whether the compiler has the sanitizers."""
    (room / "empty.c").write_text("int main(void) { return 0; }\n")
    words = ["cc", *SANITIZED, "-o", str(room / "empty"), str(room / "empty.c")]
    return subprocess.run(words, capture_output=True).returncode == 0 and subprocess.run([str(room / "empty")]).returncode == 0


def c_driver(prefix: Path, room: Path, plain: bool = False) -> Path:
    """The driver of C, with sanitizers where the compiler has them and it is not to be plain."""
    made = room / ("door_c_plain" if plain else "door_c")
    flags = SANITIZED if not plain and _is_sanitizing(room) else []
    if not plain and not flags:
        print("left out: sanitizers (cc has none)", flush=True)
    sources = [str(source) for source in sorted(HERE.glob("*.c"))]
    _ran(["cc", "-std=gnu11", "-O1", "-g", "-Wall", "-Wextra", "-Werror", *flags, f"-I{prefix}/include", "-o", str(made), *sources,
          f"{prefix}/lib/libssz.a"], "the driver of C")
    return made


def rust_driver(prefix: Path, tree: Path, room: Path) -> Path:
    """The driver of Rust, with checks of overflow, over the crate of the tree."""
    folder = room / "rust"
    folder.mkdir(exist_ok=True)
    (folder / "Cargo.toml").write_text(CARGO.format(source=HERE / "door.rs", crate=tree / "rust"))
    _ran(["cargo", "build", "-q", "--release", "--offline", "--manifest-path", str(folder / "Cargo.toml"), "--target-dir", str(folder / "target")],
         "the driver of Rust", SSZ_LIB_DIR=str(prefix / "lib"))
    return folder / "target" / "release" / "door"


def missing() -> list[str]:
    """The programs that are wanted and not there."""
    return [word for word in ("cc", "cargo") if not shutil.which(word)]
