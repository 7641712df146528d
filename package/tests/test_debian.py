"""The packages for Debian: what is in which, the papers of each, what was stripped, and what lintian says."""
import gzip
import os
import pathlib
import re
import shutil
import subprocess
import sys
import tarfile

from calls import ROOT, VERSION, PackageTest, packages, wants, wants_library, wants_program
from clean_root import names_in

MAJOR = VERSION.partition(".")[0]
SHARED, DEVELOPMENT, PYTHON = f"libsigdorf{MAJOR}", "libsigdorf-dev", "python3-sigdorf"
LIBRARIES = "usr/lib/x86_64-linux-gnu"
# Of each package what it depends on, by name.
DEPENDS = {
    "sigdorf": ["libc6", "python3"],
    SHARED: ["libc6"],
    DEVELOPMENT: [SHARED],
    PYTHON: ["libc6", SHARED, "python3", "python3-numpy"],
}
# A package whose files have such a path, and no other one has them.
PLACES = {
    "sigdorf": r"usr/(bin|share)/",
    SHARED: rf"{LIBRARIES}/libsigdorf\.so\.",
    DEVELOPMENT: rf"usr/include/|{LIBRARIES}/(libsigdorf\.(a|so)$|pkgconfig/|cmake/)",
    PYTHON: rf"usr/lib/python3/dist-packages/sigdorf(-{re.escape(VERSION)}\.dist-info)?/",
}
# The sections that a processor or the loader sees.
CODE = (".text", ".rodata", ".data")


def control_of(deb, part):
    """A file of a package that dpkg alone reads; empty where it isn't there."""
    return subprocess.run(["dpkg-deb", "--info", deb, part], capture_output=True, text=True).stdout


@wants_program()
@wants_library()
@wants("dpkg-deb")
class Debian(PackageTest):
    def unpacked(self, name):
        folder = self.folder / name
        if not folder.exists():
            self.done("dpkg-deb", "--extract", packages()[1][name], folder)
        return folder

    def test_names(self):
        self.assertEqual(sorted(packages()[1]), sorted(DEPENDS))
        for name, wanted in DEPENDS.items():
            control = control_of(packages()[1][name], "control")
            self.assertEqual(re.search(r"^Version: (.*)$", control, re.M)[1], VERSION)
            found = [choices[0] for choices in names_in(re.search(r"^Depends: (.*)$", control, re.M)[1])]
            self.assertEqual(found, wanted, name)
            self.assertNotIn("@", control.replace("maintainers@users", ""), name)

    def test_places(self):
        """Each file is in its package, and two packages have none in common."""
        for name in DEPENDS:
            folder = self.unpacked(name)
            for path in folder.rglob("*"):
                place = str(path.relative_to(folder))
                if not path.is_dir() and not place.startswith("usr/share/doc/"):
                    owners = [other for other, pattern in PLACES.items() if re.match(pattern, place)]
                    self.assertEqual(owners, [name], place)

    def test_papers(self):
        for name in DEPENDS:
            papers = self.unpacked(name) / "usr/share/doc" / name
            text = (papers / "copyright").read_text()
            for part in ("No licence has been chosen yet", "all rights are reserved", "whoever gave you the package"):
                self.assertIn(part, text, name)
            changes = gzip.decompress((papers / "changelog.gz").read_bytes()).decode()
            self.assertTrue(changes.startswith(f"sigdorf ({VERSION}) "), changes)
        with tarfile.open(packages()[0]) as archive:
            self.assertTrue(any(member.name.endswith("share/doc/sigdorf/copyright") for member in archive))

    def test_manual_page_for_each_command(self):
        usr = self.unpacked("sigdorf") / "usr"
        commands = sorted(path.name for path in (usr / "bin").iterdir())
        pages = sorted(path.name.removesuffix(".1.gz") for path in (usr / "share/man/man1").iterdir())
        self.assertEqual(pages, commands)

    def test_loader_knows_the_library(self):
        deb = packages()[1][SHARED]
        self.assertEqual(control_of(deb, "shlibs"), f"libsigdorf {MAJOR} {SHARED} (>= {VERSION})\n")
        self.assertEqual(control_of(deb, "triggers"), "activate-noawait ldconfig\n")

    def test_pkg_config(self):
        text = (self.unpacked(DEVELOPMENT) / LIBRARIES / "pkgconfig/sigdorf.pc").read_text()
        libraries = LIBRARIES.removeprefix("usr/")
        self.assertIn(f"prefix=/usr\nlibdir=${{prefix}}/{libraries}\nincludedir=${{prefix}}/include\n", text)

    def test_python_knows_the_module(self):
        found = self.unpacked(PYTHON) / "usr/lib/python3/dist-packages"
        program = "import importlib.metadata as known; print(known.version('sigdorf'), known.requires('sigdorf'), known.metadata('sigdorf')['Requires-Python'])"
        told = self.done(sys.executable, "-B", "-c", program, environment={"PYTHONPATH": str(found)})
        self.assertEqual(told, f"{VERSION} ['numpy>=1.24'] >=3.10\n")

    @wants("cc", "cmake", "make")
    def test_cmake(self):
        """The files find the library where the packages put it, both laid into one folder."""
        for name in (SHARED, DEVELOPMENT):
            shutil.copytree(self.unpacked(name), self.folder / "both", symlinks=True, dirs_exist_ok=True)
        shutil.copy(ROOT / "examples/crew.c", self.folder)
        words = "cmake_minimum_required(VERSION 3.13)\nproject(crew C)\nfind_package(Sigdorf REQUIRED)\n"
        words += "add_executable(crew crew.c)\ntarget_link_libraries(crew PRIVATE Sigdorf::sigdorf)\n"
        (self.folder / "CMakeLists.txt").write_text(words)
        found = f"-DSigdorf_DIR={self.folder}/both/{LIBRARIES}/cmake/Sigdorf"
        self.done("cmake", "-S", self.folder, "-B", self.folder / "made", found)
        self.done("cmake", "--build", self.folder / "made")
        self.assertTrue(self.done(self.folder / "made/crew").startswith("145 minutes\n"))

    @wants("strip", "readelf", "objcopy")
    def test_stripped(self):
        """Names for debuggers are gone, and what runs is what was built."""
        library = f"libsigdorf.so.{VERSION}"
        pairs = [
            (pathlib.Path(os.environ["AUCTION"]), self.unpacked("sigdorf") / "usr/bin/auction"),
            (pathlib.Path(os.environ["LIBRARY"], library), self.unpacked(SHARED) / LIBRARIES / library),
        ]
        for built, packed in pairs:
            told = self.done("readelf", "--section-headers", "--wide", packed)
            for name in (".symtab", ".debug_info", ".comment"):
                self.assertNotIn(f" {name} ", told, packed)
            for name in CODE:
                self.assertEqual(self.section(packed, name), self.section(built, name), f"{packed}: {name}")

    def section(self, file, name):
        """The bytes of a section, none where the file has no such section."""
        into = self.folder / "section"
        into.unlink(missing_ok=True)
        self.done("objcopy", "--dump-section", f"{name}={into}", file, self.folder / "copy")
        return into.read_bytes() if into.exists() else b""

    @wants("lintian")
    def test_lintian(self):
        told = self.done("lintian", "--fail-on", "error,warning", *packages()[1].values())
        self.assertEqual([line for line in told.splitlines() if re.match("[EW]: ", line)], [])
