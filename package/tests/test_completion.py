"""Completion of `auction`: what bash, zsh and fish offer, and that all know just the commands and options of the usage."""
import os
import re

from calls import ROOT, TYPING, PackageTest, wants

COMPLETION = ROOT / "package" / "completion"
COMMANDS = ["solve", "check", "hall", "mail"]


def usage():
    """The lines of the usage, by command, as the program's source has them."""
    text = (ROOT / "crates/auction/src/usage.rt").read_text()
    return {name: re.search(rf"auction {name}\b.*", text)[0] for name in COMMANDS}


def options_of(command):
    return sorted(re.findall(r"--[a-z]+", usage()[command]))


@wants("bash")
class Bash(PackageTest):
    def offered(self, *words):
        """What is offered for the last word."""
        script = f'. "{COMPLETION}/auction.bash"; COMP_WORDS=("$@"); COMP_CWORD=$(($# - 1)); _auction; printf "%s\\n" "${{COMPREPLY[@]}}"'
        return sorted(filter(None, self.done("bash", "-c", script, "bash", "auction", *words, cwd=self.folder).splitlines()))

    def test_commands(self):
        self.assertEqual(self.offered(""), sorted([*COMMANDS, "help", "--help", "--version"]))
        self.assertEqual(self.offered("s"), ["solve"])
        self.assertEqual(self.offered("--v"), ["--version"])

    def test_options(self):
        for command in COMMANDS:
            self.assertEqual(self.offered(command, "-"), sorted([*options_of(command), "--help"]), command)
        self.assertEqual(self.offered("solve", "crew.arcs", "--w"), ["--workers"])

    def test_files(self):
        (self.folder / "crew.arcs").touch()
        (self.folder / "crew.certificate").touch()
        self.assertEqual(self.offered("check", "crew.a"), ["crew.arcs"])
        self.assertEqual(self.offered("solve", "--from", "crew.c"), ["crew.certificate"])
        self.assertEqual(self.offered("solve", "--from", "=", "crew.c"), ["crew.certificate"])

    def test_numbers(self):
        for option in ("--workers", "--bids", "--audit", "--objects"):
            self.assertEqual(self.offered("solve", option, ""), [], option)
            self.assertEqual(self.offered("solve", option, "="), [], option)

    def test_no_files_after_help(self):
        (self.folder / "crew.arcs").touch()
        self.assertEqual(self.offered("help", ""), sorted(COMMANDS))
        for words in (["help", "solve"], ["--help"], ["--version"]):
            self.assertEqual(self.offered(*words, ""), [], words)


class Zsh(PackageTest):
    def parts(self):
        """The text of each command's branch."""
        text = (COMPLETION / "auction.zsh").read_text()
        shared = re.search(r"objects=\((.*)\)", text)[1]
        for command in COMMANDS:
            branch = re.search(rf"^    {command}\)(.*?);;", text, re.M | re.S)[1]
            yield command, branch.replace("$objects", shared)

    def test_options(self):
        for command, branch in self.parts():
            self.assertEqual(sorted(set(re.findall(r"--[a-z]+", branch))), sorted([*options_of(command), "--help"]), command)

    @wants("zsh")
    def test_offers(self):
        os.symlink(COMPLETION / "auction.zsh", self.folder / "_auction")
        (self.folder / "crew.arcs").touch()
        self.assertEqual(self.completed("auction help crew"), "auction help crew", "no file")
        self.assertEqual(self.completed("auction help h"), "auction help hall")
        for typed, line in [("auction s", "auction solve "), ("auction solve --w", "auction solve --workers "), ("auction hall --o", "auction hall --objects "), ("auction --v", "auction --version ")]:
            self.assertEqual(self.completed(typed), line.rstrip(), typed)

    def completed(self, typed):
        """What a line becomes that is typed, with a Tab behind it, into a zsh that has the file among its functions."""
        told = self.done("zsh", "-f", "-c", TYPING, "zsh", typed, cwd=self.folder)
        return re.sub(r"\x1b\[[0-9;?]*[A-Za-z]", "", re.findall(r"<([^<>\n]*)>", told)[-1]).strip()


class Fish(PackageTest):
    def test_options(self):
        """The options of each command are those of the usage."""
        text = (COMPLETION / "auction.fish").read_text()
        for command in COMMANDS:
            lines = [line for line in text.splitlines() if re.search(rf"__fish_seen_subcommand_from [a-z ]*\b{command}\b", line)]
            found = re.findall(r"-l ([a-z]+)", "\n".join(lines))
            self.assertEqual(sorted(f"--{name}" for name in found), options_of(command), command)

    @wants("fish")
    def test_offers(self):
        (self.folder / "crew.arcs").touch()
        (self.folder / "crew.certificate").touch()
        self.assertEqual(self.offered("auction "), sorted([*COMMANDS, "help"]))
        for command in COMMANDS:
            self.assertEqual(self.offered(f"auction {command} --"), sorted([*options_of(command), "--help"]), command)
        self.assertEqual(self.offered("auction --v"), ["--version"])
        self.assertEqual(self.offered("auction check crew.a"), ["crew.arcs"])
        self.assertEqual(self.offered("auction solve --from crew.c"), ["crew.certificate"])
        self.assertEqual(self.offered("auction help "), sorted(COMMANDS))
        for typed in ("auction solve --workers ", "auction help crew", "auction help solve "):
            self.assertEqual(self.offered(typed), [], typed)

    def offered(self, typed):
        script = f'source "{COMPLETION}/auction.fish"; complete -C "{typed}"'
        told = self.done("fish", "--no-config", "-c", script, cwd=self.folder, environment={"HOME": str(self.folder)})
        return sorted(line.split("\t")[0] for line in told.splitlines())
