"""What the notebook of the examples shows is what comes out."""
import os
import pathlib
import unittest

from limited import Limited

try:
    import ipykernel
    import matplotlib
    import nbclient
    import nbformat
    import pandas
except ImportError:
    nbclient = None

ROOT = pathlib.Path(__file__).resolve().parents[2]
NOTEBOOK = ROOT / "examples" / "assignments.ipynb"


def shown(cell):
    """What a cell shows: its texts, and for each picture that there is one."""
    for output in cell.get("outputs", []):
        data = output.get("data", {})
        yield "a picture" if "image/png" in data else data.get("text/plain", output.get("text"))


class Notebook(Limited):
    @unittest.skipUnless(nbclient, "nbclient, ipykernel, matplotlib or pandas is not there")
    @unittest.skipUnless(NOTEBOOK.exists(), "the examples aren't here")
    def test_outputs(self):
        kept = nbformat.read(NOTEBOOK, as_version=4)
        fresh = nbformat.read(NOTEBOOK, as_version=4)
        package = os.pathsep.join([str(ROOT / "python"), os.environ.get("PYTHONPATH", "")])
        client = nbclient.NotebookClient(fresh, timeout=50, resources={"metadata": {"path": str(NOTEBOOK.parent)}})
        quiet = {"PYTHONDONTWRITEBYTECODE": "1", "PYDEVD_DISABLE_FILE_VALIDATION": "1"}
        client.execute(env=os.environ | quiet | {"PYTHONPATH": package})
        self.assertTrue(any(list(shown(cell)) for cell in kept.cells))
        for before, after in zip(kept.cells, fresh.cells, strict=True):
            self.assertEqual(list(shown(after)), list(shown(before)), after.source)


if __name__ == "__main__":
    unittest.main()
