"""install: what is put in place works from there, and what can't be put there is told in a sentence."""
import os
import re
import subprocess

from calls import ROOT, ToolTest, has_program
from served import Served


class Installed(ToolTest):
    def run_in_folder(self, *command, **variables):
        """Status, standard output and standard error of a command. A program is always named, since `install` would build one."""
        environment = {"AUCTION": "/bin/false"} | os.environ | variables
        done = subprocess.run(list(map(str, command)), cwd=self.folder, env=environment, capture_output=True, text=True, timeout=60, stdin=subprocess.DEVNULL)
        return done.returncode, done.stdout, done.stderr

    @has_program()
    def test_plans_from_there(self):
        prefix = self.folder / "a place"
        status, output, said = self.run_in_folder(ROOT / "install", prefix)
        self.assertEqual((status, said), (0, ""))
        self.assertIn(f"{prefix}/bin/auction: the program", output)
        again = self.run_in_folder(ROOT / "install", "a place")
        self.assertEqual(again, (status, output, said), "a second time, and by a name from here")
        self.write("table.csv", "a,x,3\na,y,1\nb,x,1\nb,y,9\n")
        without = {"AUCTION": ""}
        self.assertEqual(self.run_in_folder("a place/bin/auction-plan", "table.csv", "--quiet", **without), (0, "person,object,cost\na,y,1\nb,x,1\ntotal,,2\n", ""))
        steps = "auction-from-csv table.csv && auction solve table.arcs >certificate && auction-to-csv certificate table.names && auction-check-certificate table.arcs certificate"
        steps += " && auction-margins table.arcs certificate && auction-picture table.arcs certificate"
        status, output, said = self.run_in_folder("sh", "-c", steps, **without, PATH=f"{prefix}/bin:{os.environ['PATH']}")
        self.assertEqual((status, said), (0, ""))
        for part in ("total,,2", "valid optimal 2", "only best plan", "</svg>"):
            self.assertIn(part, output)
        self.assertTrue((prefix / "share/man/man1/auction.1").is_file())
        self.assert_fault(self.run_in_folder("a place/bin/auction-plan", "nosuch"), "auction-plan: nosuch")

    @has_program()
    def test_page_from_there(self):
        """The page has all its files where it is installed."""
        self.run_in_folder(ROOT / "install", self.folder / "place")
        page = Served(self.folder, ROOT / "examples/crew.csv", plan=[self.folder / "place/bin/auction-plan"])
        self.addCleanup(page.end)
        for name in re.findall(r'(?:src|href)="(/assets/[^"]+)"', page.open().body.decode()):
            self.assertEqual(page.ask(name).status, 200, name)
        self.assertEqual(page.send("/options", {}).status, 200)
        self.assertEqual(page.plan().told()["answer"]["sentence"], "A best plan: the least total is 145.")
        self.assertTrue(page.end()[1].startswith("auction-plan: open this address"))

    def assert_refused(self, answer, wanted, *parts):
        status, output, said = answer
        self.assertEqual((status, output), (wanted, ""), said)
        self.assertEqual(said.count("\n"), 1, said)
        for part in parts:
            self.assertIn(part, said)

    def test_faults(self):
        self.write("file", "")
        self.assert_refused(self.run_in_folder(ROOT / "install", "file"), 1, "file/bin", "can't be written")
        self.assert_refused(self.run_in_folder(ROOT / "install", "one", "two"), 2, "2 words")
        self.assert_refused(self.run_in_folder(ROOT / "install", "--prefix"), 2, "--prefix")
        self.assert_refused(self.run_in_folder(ROOT / "install", "place", AUCTION="nosuch"), 1, "nosuch is no program")
        self.assert_refused(self.run_in_folder(ROOT / "install", "place", AUCTION="/bin/true"), 1, "/bin/true is no program")
        self.assertFalse((self.folder / "place/bin/auction").exists())

    def test_help(self):
        status, output, said = self.run_in_folder(ROOT / "install", "--help")
        self.assertEqual((status, said), (0, ""))
        self.assertIn("/usr/local", output)
