"""The packages: the same bytes twice, and each works in a root that has no more than what each .deb depends on."""
import hashlib
import os
import shutil
import subprocess
import tarfile
import time
import unittest

from calls import ROOT, VERSION, PackageTest, packages, run, wants, wants_library, wants_program
from clean_root import CannotBeMade, CleanRoot, closure, names_in
from pages import commands_of, compared

PAGES = ["README.md", "examples/README.md", "docs/PLANNING.md"]
TOOLCHAIN = ["rt", "rattle", "cc", "gcc", "clang", "ld", "make", "git"]


def field(deb, name):
    return subprocess.run(["dpkg-deb", "--field", deb, name], check=True, capture_output=True, text=True).stdout.strip()


@wants_program()
@wants_library()
class Bytes(PackageTest):
    def digests(self, folder):
        return {path.name: hashlib.sha256(path.read_bytes()).hexdigest() for path in sorted(folder.iterdir())}

    def test_same_bytes_twice(self):
        first, second = self.folder / "first", self.folder / "second"
        self.done(ROOT / "package" / "build", "--into", first)
        # Another time, another place, another umask and another name of a file's maker.
        time.sleep(1.1)
        self.done("bash", "-c", f"umask 077; cd / && {ROOT}/package/build --into {second}", environment={"TMPDIR": str(self.folder), "LC_ALL": "C.UTF-8", "TZ": "Asia/Tokyo"})
        self.assertEqual(self.digests(first), self.digests(second))

    def test_archive(self):
        with tarfile.open(packages()[0]) as archive:
            members = archive.getmembers()
        names = [member.name for member in members]
        self.assertEqual(names, sorted(names, key=lambda name: name.split("/")))
        self.assertEqual({(member.uid, member.gid, member.uname) for member in members}, {(0, 0, "")})
        self.assertEqual(len({member.mtime for member in members}), 1)
        self.assertEqual([name for name in names if not name.startswith(f"sigdorf-{VERSION}-linux-x86_64")], [])
        for member in members:
            if member.issym():
                self.assertFalse(member.linkname.startswith("/"), member.name)

    def test_without_library(self):
        status, told = run(ROOT / "package" / "build", "--into", self.folder, environment={"LIBRARY": "nosuch"})
        self.assertEqual((status, told.count("\n")), (1, 1))
        self.assertIn("c/build makes it", told)


@wants_program()
@wants_library()
class InRoot(PackageTest):
    """Both packages in one root, one after the other: the archive in a folder of its own, and then the .deb by dpkg."""

    @classmethod
    def setUpClass(cls):
        try:
            cls.root = CleanRoot([*cls.wanted(), *cls.extra()])
        except CannotBeMade as why:
            raise unittest.SkipTest(f"no clean root: {why}") from None
        cls.addClassCleanup(cls.root.close)
        status, told = cls.root.run("python3 -c 'import sys, csv, json, decimal; assert sys.version_info >= (3, 11)'")
        if status:
            raise unittest.SkipTest(f"Python 3.11 doesn't run in the root: {told}")

    @classmethod
    def wanted(cls):
        """What each .deb depends on, but other packages of ours, and numpy, which stands apart."""
        names = {choices[0] for deb in packages()[1].values() for choices in names_in(field(deb, "Depends"))}
        return sorted(names - {*packages()[1], "python3-numpy"} | {"libc6", "python3"})

    @classmethod
    def extra(cls):
        """numpy, which the modules of Python want, where this machine has it."""
        try:
            closure(["python3-numpy"])
            return ["python3-numpy"]
        except CannotBeMade:
            return []

    def in_root(self, command, **more):
        status, told = self.root.run(command, **more)
        self.assertEqual(status, 0, f"{command}: {told}")
        return told

    def put_in_root(self, path):
        shutil.copy(path, self.root.path / "opt")
        return f"/opt/{path.name}"

    def work_folder(self, prefix):
        """A folder in the root where the commands of a page find the examples."""
        self.in_root(f"rm -rf /root/work && mkdir /root/work && ln -s {prefix}/share/doc/sigdorf/examples /root/work/examples")

    def run_page(self, prefix, page, path):
        """Runs each command of a page of the package, and compares what it writes."""
        self.work_folder(prefix)
        text = (self.root.path / prefix.lstrip("/") / "share/doc/sigdorf" / page).read_text(encoding="utf-8")
        tried = 0
        for command, wanted in commands_of(text):
            with self.subTest(page=page, command=command):
                got = self.root.run(command, folder="/root/work", PATH=path)[1].splitlines()
                self.assertEqual(compared(got), compared(wanted))
            tried += 1
        self.assertGreater(tried, 0)

    def test_no_toolchain(self):
        for name in TOOLCHAIN:
            self.assertNotEqual(self.root.run(f"command -v {name}")[0], 0, name)
        self.assertFalse((self.root.path / str(ROOT).lstrip("/")).exists())

    def test_archive(self):
        name = self.put_in_root(packages()[0])
        self.in_root(f"tar -xzf {name}", folder="/opt")
        prefix = name.removesuffix(".tar.gz")
        self.addCleanup(self.in_root, f"rm -r {prefix}")
        # What the README shows is typed where the archive was unpacked.
        self.assertIn("total,,145", self.in_root("bin/auction-plan examples/crew.csv && head -1 README.md docs/PLANNING.md", folder=prefix))
        path = f"{prefix}/bin:/usr/bin:/bin"
        self.assertEqual(self.in_root("auction --version", PATH=path), f"auction {VERSION} (Sigdorf)\n")
        for page in PAGES[:2]:
            self.run_page(prefix, page, path)
        self.run_python(PYTHONPATH=f"{prefix}/lib/python3", examples=f"{prefix}/share/doc/sigdorf/examples")

    @wants("dpkg-deb")
    def test_deb(self):
        names = [name for name in packages()[1] if self.extra() or name != "python3-sigdorf"]
        self.in_root(f"dpkg --install {' '.join(self.put_in_root(packages()[1][name]) for name in names)}")
        self.addCleanup(self.root.run, f"dpkg --purge {' '.join(names)}")
        self.assertEqual(self.in_root("auction --version"), f"auction {VERSION} (Sigdorf)\n")
        self.assertEqual(self.in_root(f"dpkg --verify {' '.join(names)}"), "")
        for page in PAGES:
            self.run_page("/usr", page, "/usr/bin:/bin")
        self.run_python(examples="/usr/share/doc/sigdorf/examples")
        self.run_c_program()
        self.assert_purged(names)

    def assert_purged(self, names):
        """Nothing is left, also where Python has kept compiled modules."""
        if "python3-sigdorf" in names:
            self.in_root("python3 -m compileall -q /usr/lib/python3/dist-packages/sigdorf")
        listed = self.in_root(f"dpkg --listfiles {' '.join(names)}").split()
        before = {path for path in listed if "sigdorf" in path or "auction" in path}
        self.in_root(f"dpkg --purge {' '.join(names)}")
        left = [path for path in sorted(before) if os.path.lexists(self.root.path / path.lstrip("/"))]
        self.assertEqual(left, [])

    def run_python(self, examples, **environment):
        if not self.extra():
            print("skipped: the Python package in the root: python3-numpy isn't on this machine")
            return
        self.assertIn("145 minutes", self.in_root(f"python3 -B {examples}/crew.py", **environment))

    def run_c_program(self):
        """A program that was linked here, by what pkg-config says of the unpacked archive, finds the library in the root by its name there."""
        if not all(map(shutil.which, ("cc", "pkg-config"))):
            print("skipped: a C program over the installed library: cc or pkg-config isn't there")
            return
        self.done("tar", "-C", self.folder, "-xzf", packages()[0])
        prefix = next(path for path in self.folder.iterdir() if path.is_dir())
        words = self.done("pkg-config", "--cflags", "--libs", "sigdorf", environment={"PKG_CONFIG_PATH": str(prefix / "lib/pkgconfig")}).split()
        program = self.root.path / "opt" / "crew"
        self.done("cc", "-O2", "-o", program, ROOT / "examples/crew.c", *words)
        self.assertTrue(self.in_root("/opt/crew").startswith("145 minutes\n"))
