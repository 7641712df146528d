"""install: where it puts things with DESTDIR, what it says that it left out, and that --uninstall takes away just that."""
import os
import shutil
import sys

from calls import ROOT, VERSION, PackageTest, run, wants_library, wants_program

LEFT_OUT = "left out: the library for C"


@wants_program()
class Install(PackageTest):
    def install(self, *words, **environment):
        return self.done(ROOT / "install", *words, cwd=self.folder, environment=environment)

    def put_in(self, folder, *names):
        for name in names:
            path = folder / name
            path.parent.mkdir(parents=True, exist_ok=True)
            path.write_text(f"{name}, which was here before\n")

    @wants_library()
    def test_takes_away_what_it_put(self):
        self.put_in(self.folder, "here/bin/other", "here/share/man/man1/other.1", "here/lib/python3/sigdorf/notes")
        before = self.files_below(self.folder)
        told = self.install("here")
        self.assertNotIn(LEFT_OUT, told)
        self.assertGreater(len(self.files_below(self.folder)), len(before) + 40)
        self.install("--uninstall", "here")
        self.assertEqual(self.files_below(self.folder), before)

    def test_folders_that_were_made_go(self):
        self.install("new place")
        self.install("new place")
        # What Python keeps beside modules goes with them.
        self.done(sys.executable, "-m", "compileall", "-q", self.folder / "new place/share/sigdorf")
        self.install("--uninstall", "new place")
        self.assertEqual(self.files_below(self.folder), [])

    def test_changed_files_stay(self):
        self.install("here")
        changed = self.folder / "here/share/doc/sigdorf/README.md"
        changed.write_text("mine\n")
        replaced = self.folder / "here/bin/auction-plan"
        replaced.unlink()
        replaced.symlink_to("/bin/true")
        told = self.install("--uninstall", "here")
        for path in (changed, replaced):
            self.assertIn(f"{path}: it stays", told)
        files = [path for path in (self.folder / "here").rglob("*") if not path.is_dir()]
        self.assertEqual(sorted(files), sorted([changed, replaced]))

    def test_what_is_no_longer_put_goes(self):
        self.install("here")
        listed = self.folder / "here/share/sigdorf/installed"
        self.put_in(self.folder, "here/share/sigdorf/of_old/module.py")
        checksum = self.done("sh", "-c", "cksum <here/share/sigdorf/of_old/module.py", cwd=self.folder).strip()
        listed.write_text(listed.read_text() + f"folder share/sigdorf/of_old\nfile {checksum} share/sigdorf/of_old/module.py\n")
        self.install("here")
        self.assertFalse((self.folder / "here/share/sigdorf/of_old").exists())
        self.assertTrue((self.folder / "here/bin/auction").exists())

    @wants_library()
    def test_without_library_for_the_second_time(self):
        self.install("here")
        told = self.install("here", LIBRARY="nosuch")
        self.assertIn(LEFT_OUT, told)
        self.assertIn("c/build makes it", told)
        self.assertFalse((self.folder / "here/lib").exists())
        self.assertFalse((self.folder / "here/include").exists())

    @wants_library()
    def test_destdir(self):
        self.install("/usr", DESTDIR=str(self.folder / "stage"))
        self.assertEqual([path.name for path in (self.folder / "stage").iterdir()], ["usr"])
        usr = self.folder / "stage/usr"
        self.assertEqual(os.readlink(usr / "lib/libsigdorf.so.1"), f"libsigdorf.so.{VERSION}")
        for path in usr.rglob("*"):
            if path.is_symlink():
                self.assertTrue(path.exists(), path)
            elif path.is_file():
                self.assertNotIn(str(self.folder).encode(), path.read_bytes(), path)
        moved = self.folder / "moved"
        shutil.move(usr, moved)
        self.done(moved / "bin/auction-check-certificate", ROOT / "examples/crew.arcs", ROOT / "examples/crew.certificate")
        self.install("--uninstall", moved)
        self.assertEqual(self.files_below(self.folder), ["stage"])

    def test_faults(self):
        for words, status, part in [(["--uninstall", "nosuch"], 1, "isn't there"), (["--uninstall", "one", "two"], 2, "2 words"), (["--remove"], 2, "--remove")]:
            self.assertEqual(run(ROOT / "install", *words, cwd=self.folder)[0], status)
            self.assertIn(part, run(ROOT / "install", *words, cwd=self.folder)[1])
        self.assertEqual(run(ROOT / "install", "usr", cwd=self.folder, environment={"DESTDIR": "stage"})[0], 2)

    def test_refuses_without_a_program(self):
        status, told = run(ROOT / "install", "here", cwd=self.folder, environment={"AUCTION": "nosuch"})
        self.assertEqual((status, told.count("\n")), (1, 1))
        self.assertIn("no program", told)
