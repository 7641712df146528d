"""auction.1: its examples write what stands below them, and groff has nothing to say of it. PLANNING: it has all options of the tools, and no others."""
import os
import re
import shutil
import subprocess
import unittest

from calls import ROOT, ToolTest, has_program

PAGE = ROOT / "auction.1"


class Manual(ToolTest):
    @has_program()
    def test_examples(self):
        (self.folder / "auction").symlink_to(os.environ["AUCTION"])
        shown, written = [], []
        for block in PAGE.read_text(encoding="utf-8").split("\n.EX\n$ ")[1:]:
            lines = block.split("\n.EE\n")[0].split("\n")
            commands = "\n".join(line.removeprefix("$ ") for line in [f"$ {lines[0]}", *lines[1:]] if line.startswith("$ "))
            shown.append([commands, *(line for line in lines[1:] if not line.startswith("$ "))])
            environment = os.environ | {"PATH": f"{self.folder}:{os.environ['PATH']}"}
            done = subprocess.run(["sh", "-c", commands], cwd=self.folder, env=environment, capture_output=True, text=True, timeout=60)
            written.append([commands, *(done.stdout + done.stderr).splitlines()])
        self.assertGreater(len(shown), 5)
        self.assertEqual(shown, written)

    @unittest.skipUnless(shutil.which("groff"), "it needs groff")
    def test_no_warnings(self):
        done = subprocess.run(["groff", "-man", "-Tutf8", "-ww", PAGE], capture_output=True, text=True, timeout=60)
        self.assertEqual((done.returncode, done.stderr), (0, ""))


class Planning(ToolTest):
    TOOLS = ["plan", "tools/from_csv", "tools/to_csv", "tools/picture", "tools/margins", "tools/check_certificate.py"]
    # Each tool tells of these by itself.
    OWN = {"--help", "--version"}
    NAME = re.compile(r"(?<![\w-])--?[a-z][a-z-]*")

    def options(self):
        """The names of each option of the tools."""
        for status, output, said in self.answers([(tool, "--help") for tool in self.TOOLS]):
            self.assertEqual((status, said), (0, ""))
            for line in re.findall(r"^ {2,4}(-.*)$", output, re.MULTILINE):
                # After two blanks stands what it is for.
                yield set(self.NAME.findall(line.split("  ")[0]))

    def test_options(self):
        page = set(self.NAME.findall((ROOT / "docs" / "PLANNING.md").read_text(encoding="utf-8")))
        options = list(self.options())
        self.assertGreater(len(options), 50)
        self.assertEqual([names for names in options if not names & (page | self.OWN)], [])
        # Other commands on the page have short ones.
        self.assertEqual({name for name in page if name.startswith("--")} - set().union(*options), set())
