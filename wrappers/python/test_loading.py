"""How the library is found, and the package installed."""

import os
import pathlib
import subprocess
import sys
import tempfile
import unittest
import zipfile

import wheel_backend
from cases import ROOT

LIBRARY = ROOT / "target" / "libyachayniq.so"
CHECK = """
import yachayniq
try:
    yachayniq.check_profile(b"")
except (yachayniq.Refused, OSError) as error:
    print(error)
"""
REFUSED = "refused: number 10, place 0: profile under 12 bytes\n"


def check(package: pathlib.Path, folder: str = "/", **variables) -> str:
    """What a program says that uses the package from there, with these variables."""
    kept = {name: os.environ[name] for name in ("PATH", "HOME") if name in os.environ}
    run = subprocess.run(
        [sys.executable, "-B", "-c", CHECK], cwd=folder, capture_output=True, text=True,
        env=kept | {"PYTHONPATH": str(package)} | variables, check=False,
    )
    return run.stdout + run.stderr


class Loading(unittest.TestCase):
    def setUp(self):
        folder = tempfile.TemporaryDirectory()
        self.addCleanup(folder.cleanup)
        self.folder = pathlib.Path(folder.name)
        self.there = ROOT / "wrappers" / "python"

    def wrong(self, said: str, *parts: str) -> None:
        for part in (*parts, "Set YQ_SO to the path of libyachayniq.so"):
            self.assertIn(part, said)
        self.assertNotIn("Traceback", said)

    def test_library(self):
        named = self.folder / "libnamed.so"
        named.symlink_to(LIBRARY)
        self.assertEqual(check(self.there, YQ_SO=str(named)), REFUSED)
        # A bare name is the loader's to find, not a file of the folder one is in.
        path = {"LD_LIBRARY_PATH": str(self.folder)}
        self.assertEqual(check(self.there, YQ_SO="libnamed.so", **path), REFUSED)
        said = check(self.there, str(self.folder), YQ_SO="libnamed.so")
        self.wrong(said, "can't be loaded: YQ_SO names libnamed.so (", "LD_LIBRARY_PATH")
        self.assertEqual(check(self.there, str(self.folder), YQ_SO="./libnamed.so"), REFUSED)

    def test_none(self):
        self.wrong(check(self.there, YQ_SO="/none.so"), "YQ_SO names /none.so (")
        text = self.folder / "text.so"
        text.write_text("no library")
        self.wrong(check(self.there, YQ_SO=str(text)), f"YQ_SO names {text} (")
        self.wrong(check(self.there, YQ_SO="libc.so.6"), "libc.so.6 has no yq_check_profile")

    def test_wheel(self):
        for build in wheel_backend.build_wheel, wheel_backend.build_editable:
            site = self.folder / build.__name__
            site.mkdir()
            name = build(site)
            with zipfile.ZipFile(site / name) as wheel:
                self.assertIsNone(wheel.testzip())
                listed = {line.split(",")[0] for line in
                          wheel.read("yachayniq-0.1.0.dist-info/RECORD").decode().splitlines()}
                self.assertEqual(listed, set(wheel.namelist()))
                wheel.extractall(site)
        package = self.folder / "build_wheel" / "yachayniq"
        files = {file.name for file in (self.there / "yachayniq").iterdir() if file.is_file()}
        self.assertEqual({file.name for file in package.iterdir()}, files)
        self.assertIn("py.typed", files)
        self.assertEqual(check(package.parent, YQ_SO=str(LIBRARY)), REFUSED)
        self.wrong(check(package.parent), "YQ_SO is not set, so ")
        pth = self.folder / "build_editable" / "yachayniq.pth"
        self.assertEqual(pathlib.Path(pth.read_text().strip()), self.there)


if __name__ == "__main__":
    unittest.main()
