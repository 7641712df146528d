"""One version: VERSION says it, and the program, the header, the manual page, the changes and the packages agree."""
import os
import re

from calls import ROOT, VERSION, PackageTest, wants_program


class Version(PackageTest):
    def found(self, path, pattern):
        match = re.search(pattern, (ROOT / path).read_text(encoding="utf-8"), re.M)
        self.assertIsNotNone(match, f"{path} tells no version")
        return match[1]

    def test_form(self):
        self.assertRegex((ROOT / "VERSION").read_text(), r"\A\d+\.\d+\n\Z")

    def test_program_text(self):
        self.assertEqual(self.found("crates/auction/src/usage.rt", r'"auction (\S+) \(Sigdorf\)"'), VERSION)

    @wants_program()
    def test_built_program(self):
        self.assertEqual(self.done(os.environ["AUCTION"], "--version"), f"auction {VERSION} (Sigdorf)\n")

    def test_header(self):
        self.assertEqual(self.found("c/sigdorf.h", r'^#define SIGDORF_VERSION "(.*)"$'), VERSION)
        parts = [self.found("c/sigdorf.h", rf"^#define SIGDORF_VERSION_{part} (\d+)$") for part in ("MAJOR", "MINOR")]
        self.assertEqual(".".join(parts), VERSION)

    def test_manual(self):
        self.assertEqual(self.found("auction.1", r'^\.TH AUCTION 1 \S+ "Sigdorf (.*?)"'), VERSION)

    def test_changes(self):
        self.assertEqual(self.found("CHANGELOG.md", r"^## (\S+)"), VERSION)

    def test_python(self):
        self.assertEqual(self.found("python/sigdorf/__init__.py", r'^__version__ = "(.*)"$'), VERSION)
