"""The packages are of one version, and the wheel has what it needs."""

import importlib.util
import os
import re
import tempfile
import unittest
import zipfile
from pathlib import Path

import ssz

TOP = Path(__file__).resolve().parents[2]


class Packages(unittest.TestCase):
    """What stands in several files."""

    def test_one_version(self) -> None:
        places = {"install": r'VERSION, SONAME = "(.*?)"', "python/pyproject.toml": r'(?m)^version = "(.*?)"',
                  "python/backend/ssz_wheel.py": r'SONAME = "ssz", "(.*?)"', "rust/Cargo.toml": r'(?m)^version = "(.*?)"',
                  "rust/Cargo.lock": r'name = "ssz"\nversion = "(.*?)"'}
        for file, pattern in places.items():
            found = re.search(pattern, (TOP / file).read_text())
            self.assertEqual(found and found[1], ssz.__version__, file)

    def test_the_wheel(self) -> None:
        file = TOP / "python" / "backend" / "ssz_wheel.py"
        spec = importlib.util.spec_from_file_location("ssz_wheel", file)
        assert spec and spec.loader
        backend = importlib.util.module_from_spec(spec)
        spec.loader.exec_module(backend)
        with tempfile.TemporaryDirectory() as room:
            with zipfile.ZipFile(os.path.join(room, backend.build_wheel(room))) as wheel:
                names, record = set(wheel.namelist()), wheel.read(f"ssz-{ssz.__version__}.dist-info/RECORD").decode()
        self.assertEqual({line.split(",")[0] for line in record.splitlines()}, names)
        self.assertIn(f"ssz-{ssz.__version__}.dist-info/entry_points.txt", names)
        self.assertLessEqual({"ssz/__main__.py", "ssz/py.typed", "ssz/lib/libssz.so.0", "ssz/schemas/deneb.json",
                              "ssz/schemas/minimal/fulu.json", "ssz/command/picture.py"}, names)


if __name__ == "__main__":
    unittest.main()
