"""Makes the wheel, for pip or by hand (`python3 backend/ssz_wheel.py FOLDER`), with nothing but the standard library.

In it are the package, the shared library of the installation that SSZ_LIB_DIR or pkg-config names, and the schemas of the
consensus layer.
"""

from __future__ import annotations

import base64
import hashlib
import os
import subprocess
import sys
import sysconfig
import zipfile
from pathlib import Path
from typing import Any, Iterator

TOP = Path(__file__).resolve().parents[1]
NAME, VERSION, SONAME = "ssz", "0.1.0", "libssz.so.0"
TAG = "py3-none-" + sysconfig.get_platform().replace("-", "_").replace(".", "_")
METADATA = f"""Metadata-Version: 2.1
Name: {NAME}
Version: {VERSION}
Summary: SimpleSerialize (SSZ), the encoding and the hash tree of Ethereum's consensus layer, over a proved library
Requires-Python: >=3.9
"""
ENTRIES = "[console_scripts]\nssz-py = ssz.__main__:main\n"
WHEEL = f"Wheel-Version: 1.0\nGenerator: ssz_wheel\nRoot-Is-Purelib: false\nTag: {TAG}\n"


def library_folder() -> Path:
    """The folder with the shared library."""
    named = os.environ.get("SSZ_LIB_DIR")
    if not named:
        try:
            said = subprocess.run(["pkg-config", "--variable=libdir", "ssz"], capture_output=True, text=True)
            named = said.stdout.strip()
        except OSError:
            named = None
    if not named or not (Path(named) / SONAME).is_file():
        raise SystemExit(f"{SONAME} was not found: run ./install PREFIX in the repository, and set SSZ_LIB_DIR=PREFIX/lib")
    return Path(named)


def files() -> Iterator[tuple[str, bytes]]:
    """What is in the wheel: names and bytes."""
    for file in sorted((TOP / NAME).rglob("*")):
        if file.suffix == ".py" or file.name == "py.typed":
            yield str(file.relative_to(TOP)), file.read_bytes()
    libraries = library_folder()
    for file in (SONAME, f"glibc-hwcaps/x86-64-v3/{SONAME}"):
        if (libraries / file).is_file():
            yield f"{NAME}/lib/{file}", (libraries / file).read_bytes()
    built = libraries.parent / "share" / "ssz" / "built.txt"
    if built.is_file():
        yield f"{NAME}/lib/built.txt", built.read_bytes()
    schemas = TOP.parent / "examples" / "ethereum"
    if not schemas.is_dir():
        schemas = libraries.parent / "share" / "ssz" / "schemas"
    for file in sorted(schemas.rglob("*.json")):
        yield f"{NAME}/schemas/{file.relative_to(schemas)}", file.read_bytes()
    yield f"{NAME}-{VERSION}.dist-info/METADATA", METADATA.encode()
    yield f"{NAME}-{VERSION}.dist-info/WHEEL", WHEEL.encode()
    yield f"{NAME}-{VERSION}.dist-info/entry_points.txt", ENTRIES.encode()


def build_wheel(wheel_directory: str, config_settings: Any = None, metadata_directory: Any = None) -> str:
    """Writes the wheel to a folder, and returns its name (PEP 517)."""
    name, record = f"{NAME}-{VERSION}-{TAG}.whl", []
    own = f"{NAME}-{VERSION}.dist-info/RECORD"
    with zipfile.ZipFile(Path(wheel_directory) / name, "w", zipfile.ZIP_DEFLATED) as wheel:
        for path, data in files():
            wheel.writestr(zipfile.ZipInfo(path), data, zipfile.ZIP_DEFLATED)
            digest = base64.urlsafe_b64encode(hashlib.sha256(data).digest()).rstrip(b"=").decode()
            record.append(f"{path},sha256={digest},{len(data)}")
        wheel.writestr(zipfile.ZipInfo(own), "\n".join([*record, f"{own},,", ""]))
    return name


if __name__ == "__main__":
    if len(sys.argv) != 2:
        sys.exit(__doc__)
    os.makedirs(sys.argv[1], exist_ok=True)
    print(os.path.join(sys.argv[1], build_wheel(sys.argv[1])))
