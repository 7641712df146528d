"""plan --html: a page with the plan, the picture and the prices, which a browser shows and prints."""
import html.parser
import shutil
import subprocess
import unittest

from calls import ROOT, ToolTest, has_program

EXAMPLES = ROOT / "examples"
BROWSER = shutil.which("chromium") or shutil.which("google-chrome")
VOID = {"meta", "br", "img"}


class Balanced(html.parser.HTMLParser):
    """Looks that each tag ends, in its turn; and keeps the texts."""

    def __init__(self):
        super().__init__()
        self.open, self.texts = [], []

    def handle_starttag(self, tag, attributes):
        if tag not in VOID:
            self.open.append(tag)

    def handle_startendtag(self, tag, attributes):
        pass

    def handle_endtag(self, tag):
        assert self.open.pop() == tag, tag

    def handle_data(self, data):
        self.texts.append(data)


@has_program()
class Pages(ToolTest):
    def page(self, table, *words, status=0):
        answer = self.call("plan", table, "--html", "-o", "page.html", "--quiet", *words)
        self.assertEqual(answer[0], status, answer)
        page = Balanced()
        page.feed(self.read("page.html"))
        self.assertEqual(page.open, [])
        return page.texts

    def test_plan(self):
        texts = self.page(EXAMPLES / "crew.csv")
        for part in ("A best plan: the least total is 145.", "Plan", "Cleo", "roof", "145", "Prices", "pump"):
            self.assertIn(part, texts)
        self.assertIn("total 145, the least of all; checked by the proved checker and by a second one", " ".join(texts))
        self.assertNotIn("Wishes", texts)

    def test_lists(self):
        """The plan by persons and by objects, with the day; the title is shown once; and titles of columns can be pressed."""
        texts = self.page(EXAMPLES / "tours.csv")
        self.assertRegex(" ".join(texts), r"tours.csv, planned 20[0-9]{2}-[0-9]{2}-[0-9]{2} [0-9]{2}:[0-9]{2}: 5 pairs")
        page = self.read("page.html")
        self.assertIn("<h2>By tour</h2>", page)
        self.assertIn("<tr><td>market</td><td>van 2</td><td class=number>3,9</td></tr>", page)
        self.assertIn('<th class=number><button type="button">kilometres</button></th>', page)
        self.assertEqual(page.count("A best plan: the least total is 37,7.<"), 3)
        self.assertNotIn('font-weight="bold">A best plan', page)
        self.assertNotIn("http", page.replace("http://www.w3.org/2000/svg", ""))

    def test_no_prices(self):
        """Where jobs have places there are no prices, and none is drawn."""
        texts = self.page(EXAMPLES / "crew.csv", "--need", "1", "--capacity", "2")
        self.assertNotIn("Prices", texts)
        self.assertNotIn("bars: prices, in the unit of costs", texts)

    def test_wishes(self):
        texts = self.page(EXAMPLES / "tours.csv", "--capacity", "2")
        self.assertIn("stays free", texts)
        self.write("capacities.csv", "van 1,2\n")
        self.assertIn("van 1", self.page(EXAMPLES / "tours.csv", "--capacity", "capacities.csv"))
        self.assertIn("25.00", self.page(EXAMPLES / "tracks.csv", "--leave-free", "30"))

    def test_hall_set(self):
        texts = self.page(EXAMPLES / "crew_without_licences.csv", status=3)
        self.assertIn("In the way of a plan", texts)
        self.assertNotIn("Prices", texts)
        self.write("table.csv", "A,x,1\nB,x,2\nB,y,2\nC,z,1\nC,w,1\nC,v,1\n")
        self.assertIn("In the way of a plan", self.page("table.csv", "--capacity", "2", status=3))

    def test_names_are_escaped(self):
        self.write("table.csv", "<b>&,\"\"\"x\"\"\",4\n")
        self.assertIn("<b>&", self.page("table.csv"))

    @unittest.skipUnless(BROWSER, "it needs chromium")
    def test_browser(self):
        """A browser lays the page out, and prints it."""
        self.page(EXAMPLES / "crew.csv")
        command = [BROWSER, "--headless", "--no-sandbox", "--disable-gpu", f"--user-data-dir={self.folder}/browser"]
        shown = subprocess.run([*command, "--dump-dom", str(self.folder / "page.html")], capture_output=True, text=True, timeout=300)
        self.assertIn("<td>Cleo</td><td>roof</td>", shown.stdout)
        subprocess.run([*command, f"--print-to-pdf={self.folder}/page.pdf", str(self.folder / "page.html")], capture_output=True, timeout=300)
        self.assertEqual((self.folder / "page.pdf").read_bytes()[:4], b"%PDF")
