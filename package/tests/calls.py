"""What the tests of packages share: a folder each, calls in it, and the packages, made once."""
import functools
import os
import pathlib
import shutil
import subprocess
import tempfile
import unittest

ROOT = pathlib.Path(__file__).resolve().parents[2]
VERSION = (ROOT / "VERSION").read_text().strip()
SECONDS = 300

# A second zsh on a terminal of its own; behind the line and Tab, Ctrl-A puts a command before it and Ctrl-E a mark behind it that print the line.
TYPING = r"""
zmodload zsh/zpty
zpty shell zsh -f -i
zpty -w shell "fpath=($PWD \$fpath); autoload -Uz compinit; compinit -u -D; PS1=; unset zle_bracketed_paste; print REA''DY"
zpty -r shell seen '*READY*'
zpty -w -n shell "$1"$'\t\x01print -r -- "<\x05>"\n'
zpty -r shell seen '*<*>*<*>*'
print -r -- $seen
zpty -d shell
"""


def wants(*programs):
    """Skips a test where the machine lacks one of these programs."""
    missing = [name for name in programs if shutil.which(name) is None]
    return unittest.skipIf(missing, f"{', '.join(missing)} isn't there")


def wants_program():
    return unittest.skipUnless(os.access(os.environ["AUCTION"], os.X_OK), "the program isn't built")


def wants_library():
    return unittest.skipUnless(pathlib.Path(os.environ["LIBRARY"], f"libsigdorf.so.{VERSION}").exists(), "the library isn't built")


def run(*command, **more):
    """Status, and standard output and error together."""
    environment = os.environ | more.pop("environment", {})
    done = subprocess.run(list(map(str, command)), env=environment, stdin=subprocess.DEVNULL, stdout=subprocess.PIPE, stderr=subprocess.STDOUT, timeout=SECONDS, **more)
    return done.returncode, done.stdout.decode("utf-8", "replace")


@functools.cache
def packages():
    """The archive, and each .deb by its package, none where dpkg-deb isn't there. They stay until the tests end."""
    kept = tempfile.TemporaryDirectory(prefix="sigdorf-packages-")
    packages.kept = kept
    status, told = run(ROOT / "package" / "build", "--into", kept.name)
    if status:
        raise AssertionError(told)
    made = sorted(pathlib.Path(kept.name).iterdir())
    archive = next(path for path in made if path.name.endswith(".tar.gz"))
    return archive, {path.name.partition("_")[0]: path for path in made if path.suffix == ".deb"}


class PackageTest(unittest.TestCase):
    maxDiff = None

    def setUp(self):
        folder = tempfile.TemporaryDirectory(prefix="sigdorf-test-")
        self.addCleanup(folder.cleanup)
        self.folder = pathlib.Path(folder.name)

    def done(self, *command, **more):
        """What a command writes that has to end well."""
        status, told = run(*command, **more)
        self.assertEqual(status, 0, told)
        return told

    def files_below(self, folder):
        return sorted(str(path.relative_to(folder)) for path in folder.rglob("*"))
