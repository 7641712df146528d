"""Manual pages and completions of the planners' tools, as `install` puts them: the options of each tool's --help."""
import os
import re

from calls import ROOT, TYPING, VERSION, PackageTest, wants

TOOLS = [f"auction-{name}" for name in ("plan", "from-csv", "to-csv", "picture", "margins", "check-certificate")]
SHELLS = {
    "bash": "share/bash-completion/completions/{}",
    "zsh": "share/zsh/site-functions/_{}",
    "fish": "share/fish/vendor_completions.d/{}.fish",
}
MANUAL = "share/man/man1/{}.1"
LONG = r"(?<![\w-])--[a-z-]+"
# What `install` calls, but Python.
CALLED = "awk cat cksum cp dirname env find grep install ln mkdir mktemp readlink rm rmdir sed sh sort tr xargs"


class DescribedTest(PackageTest):
    def setUp(self):
        """A stand-in does what `install` asks of a program: the descriptions are of the tools alone."""
        super().setUp()
        program = self.folder / "program"
        program.write_text("#!/bin/sh\nexit 5\n")
        program.chmod(0o755)
        self.prefix = self.folder / "prefix"
        self.told = self.install(self.prefix)

    def install(self, *words, **environment):
        standing_in = {"AUCTION": str(self.folder / "program"), "LIBRARY": "nosuch"}
        return self.done(ROOT / "install", *words, environment=standing_in | environment)

    def text(self, place, tool):
        return (self.prefix / place.format(tool)).read_text(encoding="utf-8")

    def options(self, tool):
        """The long options of the tool's own help, the short ones, and the choices of those that have some."""
        told = self.done(self.prefix / "bin" / tool, "--help", environment={"COLUMNS": "200"})
        # A line of an option has its names and its value up to two blanks.
        lines = "\n".join(re.findall(r"^ +(-\S.*?)(?:  |$)", told, re.M))
        choices = {name: part.split(",") for name, part in re.findall(r"(--\S+) \{(.*?)\}", lines)}
        return set(re.findall(LONG, lines)), set(re.findall(r"(?<!\S)-[a-z]\b", lines)), choices


class Described(DescribedTest):
    def test_options_are_those_of_help(self):
        for tool in TOOLS:
            long, short, _ = self.options(tool)
            self.assertLessEqual({"--help", "--version"}, long)
            manual = "\n".join(re.findall(r"\.TP\n(.*)", self.text(MANUAL, tool))).replace("\\-", "-")
            names = re.findall(r"\\fB(-[a-z-]+)\\fR", manual)
            self.assertEqual(set(names), long | short, tool)
            bash = re.search(r'compgen -W "(--.*?)"', self.text(SHELLS["bash"], tool))[1]
            self.assertEqual(set(bash.split()), long, tool)
            # Without what is told of each option.
            zsh = re.sub(r"\[(?:\\.|[^]\\])*\]", "", self.text(SHELLS["zsh"], tool))
            self.assertEqual(set(re.findall(LONG, zsh)), long, tool)
            fish = re.findall(r" -l ([a-z-]+)", self.text(SHELLS["fish"], tool))
            self.assertEqual({f"--{name}" for name in fish}, long, tool)

    def test_told(self):
        self.assertIn("beside these the manual page and the completions of each tool", self.told)
        usage = self.done(ROOT / "install", "--help")
        for part in ("auction-plan.1", "fish"):
            self.assertIn(part, usage)

    def test_uninstall(self):
        self.install("--uninstall", self.prefix)
        self.assertFalse(self.prefix.exists())

    def test_without_python(self):
        folder = self.folder / "path"
        folder.mkdir()
        for name in CALLED.split():
            (folder / name).symlink_to(self.done("sh", "-c", f"command -v {name}").strip())
        told = self.install(self.prefix, PATH=str(folder))
        self.assertIn("left out: manual pages and completions of the tools", told)
        self.assertFalse((self.prefix / MANUAL.format("auction-plan")).exists(), "those of an earlier time are gone")

    def test_version(self):
        for tool in TOOLS:
            self.assertEqual(self.done(self.prefix / "bin" / tool, "--version"), f"{tool} {VERSION} (Sigdorf)\n")
            self.assertIn(f'"Sigdorf {VERSION}"', self.text(MANUAL, tool))

    @wants("groff")
    def test_manual_has_no_warnings(self):
        for tool in TOOLS:
            page = self.prefix / MANUAL.format(tool)
            self.assertEqual(self.done("groff", "-man", "-Tutf8", "-ww", "-z", page), "")

    @wants("lexgrog")
    def test_manual_has_a_name(self):
        for tool in TOOLS:
            self.assertIn(f'"{tool} - ', self.done("lexgrog", self.prefix / MANUAL.format(tool)))


class Shells(DescribedTest):
    def setUp(self):
        super().setUp()
        for name in ("crew.csv", "crew.certificate"):
            (self.folder / name).touch()

    @wants("bash")
    def test_bash(self):
        for tool in TOOLS:
            long, _, choices = self.options(tool)
            self.assertEqual(set(self.offered_by_bash(tool, "--")), long, tool)
            for option, words in choices.items():
                for before in ([option, ""], [option, "="], [option, "=", ""]):
                    self.assertEqual(self.offered_by_bash(tool, *before), sorted(words), option)
        self.assertEqual(self.offered_by_bash("auction-plan", "crew.cs"), ["crew.csv"])
        self.assertEqual(self.offered_by_bash("auction-plan", "--output", "crew.cs"), ["crew.csv"])
        self.assertEqual(self.offered_by_bash("auction-plan", "--decimals", ""), [])

    def offered_by_bash(self, tool, *words):
        file, function = self.prefix / SHELLS["bash"].format(tool), "_" + tool.replace("-", "_")
        call = f'COMP_WORDS=("$@"); COMP_CWORD=$(($# - 1)); {function}; printf "%s\\n" "${{COMPREPLY[@]}}"'
        told = self.done("bash", "-c", f'. "{file}"; {call}', "bash", tool, *words, cwd=self.folder)
        return sorted(filter(None, told.splitlines()))

    @wants("fish")
    def test_fish(self):
        for tool in TOOLS:
            long, _, choices = self.options(tool)
            self.assertEqual(set(self.offered_by_fish(tool, f"{tool} --")), long, tool)
            for option, words in choices.items():
                self.assertEqual(self.offered_by_fish(tool, f"{tool} {option} "), sorted(words), option)
        self.assertEqual(self.offered_by_fish("auction-plan", "auction-plan crew.cs"), ["crew.csv"])
        self.assertEqual(self.offered_by_fish("auction-plan", "auction-plan --decimals "), [])

    def offered_by_fish(self, tool, typed):
        script = f'source "{self.prefix / SHELLS["fish"].format(tool)}"; complete -C "{typed}"'
        told = self.done("fish", "--no-config", "-c", script, cwd=self.folder, environment={"HOME": str(self.folder)})
        return sorted(line.split("\t")[0] for line in told.splitlines())

    @wants("zsh")
    def test_zsh(self):
        os.symlink(self.prefix / SHELLS["zsh"].format("auction-plan"), self.folder / "_auction-plan")
        lines = {"--sep": "--separator", "--form p": "--form pairs", "--decimals 2 --qui": "--decimals 2 --quiet"}
        for typed, line in (lines | {"crew.cs": "crew.csv"}).items():
            self.assertEqual(self.completed_by_zsh(typed), line)
        self.assertEqual(self.completed_by_zsh("--json --ht"), "--json --ht", "there is one form of a plan")

    def completed_by_zsh(self, typed):
        told = self.done("zsh", "-f", "-c", TYPING, "zsh", f"auction-plan {typed}", cwd=self.folder)
        line = re.sub(r"\x1b\[[0-9;?]*[A-Za-z]", "", re.findall(r"<([^<>\n]*)>", told)[-1])
        return line.strip().removeprefix("auction-plan ")
