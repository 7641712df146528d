"""What pip makes of the Python package: a wheel for this machine's kind, the sources alone, and an extension that each Python from 3.10 on loads."""
import importlib.util
import os
import pathlib
import re
import shutil
import sys
import tarfile
import unittest
import zipfile

from calls import ROOT, VERSION, PackageTest, run, wants, wants_library

PIP = (sys.executable, "-m", "pip", "wheel", "-q", "--no-deps", "--no-index", "--no-build-isolation", "--no-cache-dir", "--wheel-dir")
NAME = rf"sigdorf-{re.escape(VERSION)}-(cp310-abi3|py3-none)-manylinux_2_\d+_x86_64\.whl"
# The extension looks for nothing of numpy's but these, when it is loaded.
LOADS = """import sys, types
sys.modules["numpy"] = types.SimpleNamespace(ndarray=list, empty=list, int64=int, dtype=lambda kind: kind)
sys.path.insert(0, sys.argv[1])
import _fast
print(_fast.INTERFACE, _fast.found.__name__)
"""
TRIED = """import importlib.metadata, sigdorf
assert importlib.metadata.version("sigdorf") == sigdorf.__version__
print(sigdorf.solve([[1, 2], [1, 4]]).cost, sigdorf.library.version())
"""


@unittest.skipUnless(importlib.util.find_spec("setuptools") and importlib.util.find_spec("wheel"), "setuptools and wheel are not there")
@wants_library()
class Wheel(PackageTest):
    def setUp(self):
        super().setUp()
        self.library = {"SIGDORF_LIBRARY": str(pathlib.Path(os.environ["LIBRARY"], "libsigdorf.so"))}

    def wheel_of(self, source, **environment):
        """The wheel that pip makes of a folder or an archive."""
        made = self.folder / "made"
        shutil.rmtree(made, ignore_errors=True)
        self.done(*PIP, made, source, cwd=self.folder, environment=environment)
        (wheel,) = made.iterdir()
        return wheel

    def assert_wheel(self, wheel):
        self.assertRegex(wheel.name, rf"\A{NAME}\Z")
        with zipfile.ZipFile(wheel) as archive:
            names = archive.namelist()
            told = archive.read(f"sigdorf-{VERSION}.dist-info/WHEEL").decode()
        self.assertIn("Root-Is-Purelib: false\n", told)
        self.assertIn(f"Tag: {wheel.name.split('-', 2)[2].removesuffix('.whl')}\n", told)
        self.assertIn("sigdorf/libsigdorf.so", names)
        self.assertEqual("-abi3-" in wheel.name, "sigdorf/_fast.abi3.so" in names)
        self.assertFalse([name for name in names if name.endswith((".c", ".h"))])

    def test_folder(self):
        """`pip install ./python` makes this wheel first; it leaves nothing in the folder but what setuptools notes there."""
        shutil.copytree(ROOT / "python", self.folder / "python", ignore=shutil.ignore_patterns("*.so", "__pycache__", "dist", "*.egg-info"))
        (self.folder / "c").mkdir()
        shutil.copy(ROOT / "c/sigdorf.h", self.folder / "c")
        shutil.copytree(ROOT / "c/levels", self.folder / "c/levels")
        before = {path.relative_to(self.folder) for path in self.folder.rglob("*")}
        wheel = self.wheel_of("./python", **self.library)
        self.assert_wheel(wheel)
        after = {path.relative_to(self.folder) for path in self.folder.rglob("*")} - before
        self.assertFalse([path for path in after if path.parts[0] == "python" and path.parts[1] != "sigdorf.egg-info"])
        self.try_wheel(wheel)

    def try_wheel(self, wheel):
        if not importlib.util.find_spec("numpy"):
            return
        self.done(sys.executable, "-m", "pip", "install", "-q", "--no-deps", "--no-index", "--target", self.folder / "installed", wheel)
        told = self.done(sys.executable, "-B", "-c", TRIED, cwd=self.folder, environment={"PYTHONPATH": str(self.folder / "installed")})
        self.assertEqual(told, f"3 {VERSION}\n")

    def test_sources(self):
        """An archive of sources is enough for the same wheel, where the library is named."""
        stage = self.folder / "stage"
        shutil.copytree(ROOT / "python", stage, ignore=shutil.ignore_patterns("*.so", "__pycache__", "dist", "*.egg-info", "tests"))
        shutil.copy(ROOT / "c/sigdorf.h", stage)
        shutil.copytree(ROOT / "c/levels", stage / "levels")
        self.done(sys.executable, "-W", "ignore", "setup.py", "-q", "sdist", "--dist-dir", self.folder, cwd=stage)
        archive = self.folder / f"sigdorf-{VERSION}.tar.gz"
        with tarfile.open(archive) as sources:
            names = {name.partition("/")[2] for name in sources.getnames()}
        self.assertTrue({"setup.py", "pyproject.toml", "sigdorf.h", "sigdorf/_fast.c", "levels/ties.c", "levels/levels.h", "sigdorf/py.typed"} <= names, names)
        self.assert_wheel(self.wheel_of(archive, **self.library))

    @wants("cc")
    def test_each_python(self):
        """The extension is loaded by whatever Pythons from 3.10 on are here."""
        if run(ROOT / "python/extension", self.folder / "fast")[0]:
            self.skipTest("the extension can't be built here")
        tried = 0
        for minor in range(10, 15):
            for python in [shutil.which(f"python3.{minor}"), *pathlib.Path.home().glob(f".pyenv/versions/3.{minor}.*/bin/python3")]:
                if python and run(python, "-c", "")[0] == 0:
                    self.assertRegex(self.done(python, "-B", "-c", LOADS, self.folder / "fast"), r"\A\d+ found\n\Z")
                    tried += 1
        if not tried:
            self.skipTest("no python3.10 or later is on the path")
