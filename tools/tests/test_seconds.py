"""A limit of seconds ends a search that is under way, and not only one whose time is up before it begins."""
import os
import subprocess
import time
import unittest

from calls import ToolTest, has_program

# All want the same objects in the same order, of which there is one more than persons; an arc is left out, so that it
# is no full table. Without a limit the direct solver takes some five seconds.
PERSONS = 800


def products():
    arcs = (f"{i} {j} {i * j}\n" for i in range(1, PERSONS + 1) for j in range(1, PERSONS + 2) if (i, j) != (1, PERSONS + 1))
    return f"{PERSONS}\n" + "".join(arcs)


class Seconds(ToolTest):
    @has_program()
    def test_end_a_search_that_bids(self):
        self.write("products.arcs", products())
        words = ["solve", "products.arcs", "--direct", "--objects", str(PERSONS + 1), "--seconds", "1"]
        begin = time.monotonic()
        done = subprocess.run([os.environ["AUCTION"], *words], cwd=self.folder, capture_output=True, timeout=120)
        # It hasn't given up before its time either.
        self.assertGreaterEqual(time.monotonic() - begin, 1)
        self.assertEqual((done.returncode, done.stdout.split()[2:4]), (4, [b"bracket", b"bids"]))
        self.assertIn("a limit ended the search", done.stderr.decode())


if __name__ == "__main__":
    unittest.main()
