"""--version and --help of each tool: VERSION tells the version, and an installed tool names the installed commands."""
import os
import shutil
import subprocess
import sys

from calls import ROOT, ToolTest

VERSION = (ROOT / "VERSION").read_text().strip()
TOOLS = ["plan", "tools/from_csv", "tools/to_csv", "tools/picture", "tools/margins", "tools/check_certificate.py"]
NAMES_OF_CLONE = ("./plan", "tools/", "./auction", "`from_csv`", "`to_csv`")


class Versions(ToolTest):
    def test_in_a_clone(self):
        for (status, output, said), tool in zip(self.answers([(tool, "--version") for tool in TOOLS]), TOOLS):
            self.assertEqual((status, output, said), (0, f"{os.path.basename(tool)} {VERSION} (Sigdorf)\n", ""))

    def test_without_the_file(self):
        """Tools that were copied alone say that they don't know it."""
        shutil.copytree(ROOT / "tools", self.folder / "tools", ignore=shutil.ignore_patterns("tests"))
        for tool in ("to_csv", "check_certificate.py"):
            command = [sys.executable, "-S", self.folder / "tools" / tool, "--version"]
            done = subprocess.run(command, capture_output=True, text=True)
            self.assertEqual((done.returncode, done.stdout), (0, f"{tool} of unknown version (Sigdorf)\n"), done.stderr)


class Helps(ToolTest):
    def help_by_name(self, tool, name):
        """The help of a tool that is called by a link of this name."""
        link = self.folder / name
        link.symlink_to(ROOT / tool)
        return subprocess.run([sys.executable, "-S", link, "--help"], capture_output=True, text=True, check=True).stdout

    def test_installed_names(self):
        for tool in TOOLS:
            name = "auction-" + os.path.basename(tool).removesuffix(".py").replace("_", "-")
            told = self.help_by_name(tool, name)
            self.assertIn(f"usage: {name} ", told)
            for part in NAMES_OF_CLONE:
                self.assertNotIn(part, told, name)

    def test_names_in_a_clone(self):
        self.assertIn("tools/from_csv", self.call("plan", "--help")[1])
