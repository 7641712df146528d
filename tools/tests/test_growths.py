"""cases/growth/run: where it can try nothing it has failed, and says why."""
import os
import subprocess
import sys

from calls import ROOT, ToolTest


class Growths(ToolTest):
    def test_without_a_compiler(self):
        command = [sys.executable, ROOT / "cases/growth/run", "--program", "nosuch", "--tests", "nosuch"]
        done = subprocess.run(command, cwd=self.folder, env=os.environ | {"PATH": str(self.folder)}, capture_output=True, text=True, timeout=60)
        self.assertEqual((done.returncode, done.stderr), (1, ""))
        self.assertIn("the C compiler (cc) isn't on the path", done.stdout)
        self.assertTrue(done.stdout.endswith("0 passed, 1 failed\n"), done.stdout)
