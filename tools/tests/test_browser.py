"""The page of plan --serve as planners use it, in a real browser: by mouse, by keyboard, and on a phone."""
import csv
import io
import os
import time
import unittest

from browsing import BrowserTest, in_browser
from calls import ROOT

CREW, WITHOUT_PLAN = ROOT / "examples/crew.csv", ROOT / "examples/crew_without_licences.csv"
HOSTILE = "<img src=x onerror=window.hit=1>"
# Has the program read its problem for longer than a second, which counts: so the time is up before the search is over.
LATE = """[ $1 = solve ] || exec "$AUCTION" "$@"
pipe=$(mktemp -u) problem=$2
mkfifo "$pipe"
{ sleep 1.3; cat "$problem"; rm "$pipe"; } </dev/null >"$pipe" 2>/dev/null &
shift 2
exec "$AUCTION" solve "$pipe" "$@"
"""


def table_of(persons, objects, cost):
    """A matrix with a cost for each pair."""
    rows = [",".join(["who", *(f"job {thing}" for thing in range(objects))])]
    rows += [",".join([f"person {person}", *(str(cost(person, thing)) for thing in range(objects))]) for person in range(persons)]
    return "\n".join(rows) + "\n"


def scattered(person, thing):
    """Costs without an order."""
    return (person * 7_919 + thing * 104_729 + (person * thing) % 1_009 * 31) % 10_000 + 1


@in_browser
class Plans(BrowserTest):
    def planned(self, *words):
        """The rows that the command itself writes for the crew, and its sentence."""
        _, output, _ = self.call("plan", CREW, "--quiet", *words)
        _, told, _ = self.call("plan", CREW, "--quiet", "--json", *words)
        return list(csv.reader(io.StringIO(output))), told

    def assert_planned(self, *words):
        """The page shows what the command writes, in the same words."""
        rows, told = self.planned(*words)
        self.assertEqual([[*row, ""][:3] for row in self.rows()], [[*row, ""][:3] for row in rows])
        self.assertIn(f'"sentence": "{self.text("#sentence")}"', told)

    def test_drop_and_plan(self):
        self.open()
        self.assertFalse(self.find("#table").is_displayed())
        self.drop("crew.csv", CREW.read_text())
        self.assert_planned()
        self.assertEqual(self.text("#facts"), "crew.csv: 4 by 4, 11 pairs are allowed")
        self.assertRegex(self.text("#summary"), r"^4 pairs, total 145, the least of all; checked by the proved checker and by a second one, [0-9]+\.[0-9] s$")
        self.wait(lambda: self.width_of_picture() > 100)
        self.assertEqual([cell.text for cell in self.all("td.plan")], ["40", "20", "45", "40"])
        self.assertEqual(len(self.all("td.none")), 5)
        self.find("#list th:nth-child(3) button").click()
        self.assertEqual([row[2] for row in self.rows()], ["cost", "20", "40", "40", "45", "145"])
        self.find("#list th:nth-child(3) button").click()
        self.assertEqual([row[2] for row in self.rows()], ["cost", "45", "40", "40", "20", "145"])
        self.find("#orders button:nth-child(2)").click()
        _, output, _ = self.call("plan", CREW, "--quiet", "--by", "job")
        self.assertEqual(self.rows(), list(csv.reader(io.StringIO(output))))
        self.assertEqual(self.complaints(), [])

    def test_picture_is_of_its_plan(self):
        """A plan of another table has another picture, which comes anew."""
        self.open(CREW)
        first = self.width_of_picture()
        self.drop("other.csv", "a,x,1\n")
        self.wait(lambda: self.width_of_picture() not in (0, first))

    def width_of_picture(self):
        return self.browser.execute_script("const picture = document.getElementById('picture'); return picture.complete ? picture.naturalWidth : 0")

    def test_fix_and_forbid(self):
        self.open(CREW)
        self.choose(0, 2)
        self.find("#fix").click()
        self.assertEqual(self.text("#plan"), "Plan again with 1 change")
        self.press("#plan")
        self.assertIn("fixed", self.cell(0, 2).get_attribute("class"))
        self.assert_planned("--fix", "Ada=wiring")
        self.find('#list button[aria-label="Forbid Ben and pump"]').click()
        self.press("#plan")
        self.assert_planned("--fix", "Ada=wiring", "--forbid", "Ben=pump")
        self.assertIn("forbidden", self.cell(1, 0).get_attribute("class"))
        for _ in range(2):
            self.find("#changes li:not(.waiting) button").click()
        self.assertEqual(self.text("#plan"), "Plan again with 2 changes")
        self.press("#plan")
        self.assert_planned()

    def test_changes_that_are_none(self):
        """What is taken back before it was planned leaves nothing to be planned."""
        self.open(CREW)
        self.choose(0, 0)
        for selector in ("#fix", "#fix", "#forbid", "#fix", "#fix"):
            self.find(selector).click()
        for text in ("50", "", "40"):
            self.change(text)
        self.assertEqual((self.text("#plan"), self.text("#changes")), ("Plan again", ""))
        self.change("50")
        self.find("#reset").click()
        self.assertEqual((self.text("#plan"), self.cell(0, 0).text), ("Plan again", "40"))

    def test_parts_of_a_large_table(self):
        """A window moves over the table by buttons, by names and by keys."""
        self.open()
        self.drop("large.csv", table_of(70, 65, scattered))
        self.assertEqual(self.text("#place"), "who 1 to 30 of 70; object 1 to 30 of 65")
        self.choose(0, 0)
        self.find("#moves button:nth-child(2)").click()
        self.wait(lambda: self.text("#place") == "who 31 to 60 of 70; object 1 to 30 of 65")
        self.assertFalse(self.find("#pair").is_displayed())
        self.find("#name").send_keys("JOB 64")
        self.find("#find button").click()
        self.wait(lambda: self.all("#found li"))
        self.find("#found button").click()
        self.wait(lambda: self.text("#place").endswith("object 61 to 65 of 65"))
        self.keys("END", "PAGE_DOWN")
        self.wait(lambda: self.text("#place").startswith("who 31 to 60"))
        self.assertEqual(self.browser.switch_to.active_element.get_attribute("aria-label"), f"person 30, job 64: {scattered(30, 64)}")
        self.find("#fix").click()
        self.press("#plan")
        self.assertIn("fixed", self.cell(30, 64).get_attribute("class"))
        self.find("#list tr:nth-child(3) button").click()
        self.wait(lambda: self.browser.switch_to.active_element.get_attribute("data-person") == "2")

    def test_change_a_cost(self):
        """Changed cells alone go to the program; the table's own cost can be taken back."""
        self.open(CREW)
        self.sent("/plan")
        self.choose(0, 0)
        self.change("70")
        self.assertEqual(self.cell(0, 0).text, "70")
        self.press("#plan")
        self.assertEqual(self.sent("/plan"), [{"fix": [], "forbid": [], "free": [], "costs": [[0, 0, "70"]]}])
        self.assertEqual(self.rows()[-1], ["total", "", "150"])
        self.write("changed.csv", CREW.read_text().replace("Ada,40", "Ada,70"))
        _, output, _ = self.call("plan", "changed.csv", "--quiet")
        self.assertEqual(self.rows(), list(csv.reader(io.StringIO(output))))
        self.change("")
        self.press("#plan")
        self.assertIn("none", self.cell(0, 0).get_attribute("class"))
        self.find("#reset").click()
        self.press("#plan")
        self.assert_planned()
        self.change("4O")
        self.press("#plan")
        self.assertIn("`Ada` and `pump`: `4O` is no number", self.text("#fault"))

    def change(self, text):
        cost = self.find("#cost")
        cost.clear()
        cost.send_keys(text)
        self.find("#change").click()

    def test_no_plan(self):
        """Who blocks whom is told by names, and leads to the table."""
        self.open(WITHOUT_PLAN)
        sentence = "No plan gives every person an object: Ada, Ben and Dan may take pump and wiring, and nothing else."
        self.assertEqual(self.text("#sentence"), sentence)
        self.assertEqual([item.text for item in self.all("#hall li")], ["Ada", "Ben", "Dan", "pump", "wiring"])
        self.assertEqual([header.text for header in self.all("th.hall")], ["pump", "wiring", "Ada", "Ben", "Dan"])
        self.find("#hall li:nth-child(3) button").click()
        self.assertEqual(self.browser.switch_to.active_element.get_attribute("data-person"), "3")
        self.change("12")
        self.press("#plan")
        self.assertIn("No plan gives", self.text("#sentence"))
        self.choose(0, 3)
        self.change("12")
        self.press("#plan")
        self.assertTrue(self.text("#sentence").startswith("A best plan"))

    def test_options(self):
        """Where the table has to be told how to be read, the options are shown."""
        self.open()
        self.drop("two.csv", "nurse,early,late\nAda,3,5\nBen,4,2\n")
        self.assertIn("say --pairs or --matrix", self.text("#fault"))
        self.assertTrue(self.find("#option-form").is_displayed())
        self.find("#option-form").send_keys("matrix")
        self.press("#fields button")
        self.assertEqual(self.rows()[-1], ["total", "", "5"])
        self.find("#option-maximise").click()
        self.press("#fields button")
        self.assertEqual(self.rows()[-1], ["total", "", "9"])
        self.find("#option-leave_free").send_keys("many")
        self.press("#fields button")
        self.assertIn("--leave-free many: `many` is no number", self.text("#fault"))

    def test_plan_of_before(self):
        self.open(CREW)
        self.choose(0, 2)
        self.find("#fix").click()
        self.press("#plan")
        self.press("#options summary")
        self.find("#option-keep").click()
        self.find("#option-change_cost").send_keys("2")
        self.press("#fields button")
        self.assertIn("total 150 with 0 changes at 2 each", self.text("#summary"))
        self.find("#changes li button").click()
        self.press("#plan")
        self.assertIn("with 2 changes at 2 each", self.text("#summary"))

    def test_reload(self):
        """The session is still there, and the address has no token any more."""
        self.open(CREW)
        self.assertEqual(self.browser.current_url, f"http://127.0.0.1:{self.page.port}/")
        self.browser.refresh()
        self.wait_until_done()
        self.assert_planned()


@in_browser
class Files(BrowserTest):
    def test_workbook(self):
        import openpyxl
        self.open(CREW)
        self.choose(0, 0)
        self.find("#forbid").click()
        self.press("#plan")
        self.find('#downloads a[href="/plan.xlsx"]').click()
        path = self.folder / "downloads/plan.xlsx"
        self.wait(path.exists)
        book = openpyxl.load_workbook(path)
        self.assertEqual(book.sheetnames, ["Plan", "By person", "By job", "Asked", "Why"])
        rows = [[cell if cell is not None else "" for cell in row] for row in book["Plan"].iter_rows(values_only=True)]
        self.assertEqual([[str(cell) for cell in row] for row in rows], self.rows())
        asked = {row[1] for row in book["Asked"].iter_rows(values_only=True)}
        self.assertLessEqual({"--forbid Ada=pump", self.text("#sentence")}, asked)

    def test_others(self):
        self.open(CREW)
        for name in ("plan.csv", "plan.html"):
            self.find(f'#downloads a[href="/{name}"]').click()
            self.wait((self.folder / "downloads" / name).exists)
        _, output, _ = self.call("plan", CREW, "--quiet")
        self.assertEqual(self.read("downloads/plan.csv"), output)

    def test_too_large(self):
        """It isn't even sent."""
        self.open(CREW)
        self.drop("big.csv", size=65 * 2**20)
        self.assertIn("big.csv has more than the 64 MB that the page takes; leave out", self.text("#fault"))
        self.assertEqual(self.rows()[-1], ["total", "", "145"])

    def test_nothing_is_left(self):
        self.open(CREW)
        self.assertEqual(self.page.end()[0], 143)
        self.assertEqual(os.listdir(self.page.files), [])
        self.press("#plan")
        self.assertIn("Start it anew in the terminal", self.text("#fault"))


@in_browser
class Hostile(BrowserTest):
    def test_names(self):
        """A name that is HTML is shown as it is, wherever it stands."""
        self.open()
        self.drop(f"{HOSTILE}.csv", f'{HOSTILE},x,"<b>y</b>",{HOSTILE}\n{HOSTILE},1,2,9\nb,3,1,9\nc,,5,\n')
        self.assertEqual(self.cell(0, 0).get_attribute("aria-label"), f"{HOSTILE}, x: 1, in the plan")
        self.assertIn(f"{HOSTILE}.csv", self.text("#facts"))
        self.assertIn(HOSTILE, self.text("#list"))
        self.choose(0, 2)
        self.find("#fix").click()
        self.press("#plan")
        self.assertIn(f"{HOSTILE} and {HOSTILE}: fixed", self.text("#changes"))
        self.drop("bad.csv", f"a,x,1\nb,y,{HOSTILE}\n")
        self.assertIn(HOSTILE[:30], self.text("#fault"))
        self.drop(f"{HOSTILE}", f"a,{HOSTILE},1\nb,{HOSTILE},1\nc,x,1\nc,y,1\n")
        self.assertIn(HOSTILE, self.text("#sentence"))
        self.browser.get(f"{self.page.origin}/{HOSTILE}")
        self.assertIsNone(self.browser.execute_script("return window.hit ?? null"))
        self.browser.back()
        self.wait_until_done()
        self.assertIsNone(self.browser.execute_script("return window.hit ?? null"))
        self.assertEqual([image.get_attribute("id") for image in self.all("img")], ["picture"])

    def test_second_browser(self):
        """Without the token there is a sentence and no table, and the page of somebody else can't reach this one."""
        self.open(CREW)
        other = self.start(f"{self.page.origin}/")
        self.assertIn("open the one that plan has printed in the terminal", other.find_element("tag name", "body").text)
        self.assertEqual((other.get_cookies(), other.find_elements("css selector", "table")), ([], []))
        self.assertEqual(other.execute_async_script("const done = arguments[0]; fetch('/view').then((answer) => done(answer.status))"), 403)
        self.assertEqual([cookie["httpOnly"] for cookie in self.browser.get_cookies()], [True])
        self.assertEqual([cookie["sameSite"] for cookie in self.browser.get_cookies()], ["Strict"])

    def test_nothing_foreign(self):
        """Whatever the page loads is its own, and no script runs that isn't."""
        self.open(CREW)
        loaded = self.browser.execute_script("return performance.getEntriesByType('resource').map((entry) => entry.name)")
        self.assertGreater(len(loaded), 8)
        self.assertEqual([name for name in loaded if not name.startswith(f"{self.page.origin}/")], [])
        self.assertEqual(self.complaints(), [])
        self.browser.execute_script("const script = document.createElement('script'); script.textContent = 'window.hit = 1'; document.body.append(script)")
        self.assertIsNone(self.browser.execute_script("return window.hit ?? null"))
        self.assertIn("Content Security Policy", " ".join(self.complaints()))


@in_browser
class Limits(BrowserTest):
    def test_two_plans_at_once(self):
        """A session has one plan at a time: the other one is told so."""
        program = self.write("slow", f'#!/bin/sh\n[ $1 != solve ] || sleep 3\nexec "{os.environ["AUCTION"]}" "$@"\n')
        program.chmod(0o755)
        self.open("--program", program)
        self.drop("crew.csv", CREW.read_text())
        ask = "fetch('/plan', { method: 'POST', body: '{}' }).then(async (answer) => { window.answers.push([answer.status, (await answer.json()).fault]); })"
        self.browser.execute_script(f"window.answers = []; {ask}; setTimeout(() => {ask}, 500)")
        self.wait(lambda: len(self.browser.execute_script("return window.answers")) == 2)
        first, second = self.browser.execute_script("return window.answers")
        self.assertEqual(first, [409, "a plan of this table is being made, and there is one at a time; wait for it"])
        self.assertEqual(second[0], 200)

    def test_time_limit(self):
        """A search that is stopped by the time has a plan and a bound."""
        program = self.write("late", f'#!/bin/sh\nAUCTION="{os.environ["AUCTION"]}"\n{LATE}')
        program.chmod(0o755)
        self.open("--program", program, "--seconds", "1")
        self.assertEqual(self.find("#option-seconds").get_attribute("value"), "1")
        self.drop("sparse.csv", sparse_table())
        self.assertRegex(self.text("#sentence"), r"^The search was stopped early: this plan is at most [0-9]+ from the best, and no total is below [0-9]+\.$")
        self.assertRegex(self.text("#summary"), r"^400 pairs, total [0-9]+, at most [0-9]+ from the best; checked by the proved checker and by a second one, ")
        self.assertEqual(len(self.rows()), 1 + 200 + 1)
        self.find("#more").click()
        self.assertEqual(len(self.rows()), 1 + 400 + 1)


def sparse_table():
    """Pairs with costs without an order; each person has a job that no other one needs."""
    rows = [f"p{person},j{thing % 400},{scattered(person, thing)}" for person in range(400) for thing in range(person, person + 300, 17)]
    return "who,what,cost\n" + "\n".join(rows) + "\n"


@in_browser
class Hands(BrowserTest):
    def test_keyboard(self):
        """All goes without a mouse, and the focus is never lost."""
        self.open(CREW)
        self.browser.execute_script("document.getElementById('plan').focus()")
        self.step_back()
        self.assertEqual(self.focused("data-person"), "0")
        self.keys("ARROW_RIGHT", "ARROW_RIGHT", "f", "p")
        self.assertIn("the least total that they allow is 150.", self.text("#sentence"))
        self.browser.execute_script("document.querySelector('td[tabindex=\"0\"]').focus()")
        self.assertEqual((self.focused("data-person"), self.focused("data-thing")), ("0", "2"))
        self.keys("HOME", "ENTER")
        self.assertEqual(self.focused("id"), "cost")
        self.keys("7", "ENTER")
        self.assertEqual((self.focused("data-thing"), self.cell(0, 0).text), ("0", "7"))
        self.keys("x", "p")
        self.assertIn("forbidden", self.cell(0, 0).get_attribute("class"))
        self.assertEqual(self.focused("id"), "sentence")

    def focused(self, attribute):
        return self.browser.switch_to.active_element.get_attribute(attribute)

    def test_all_is_reached_by_tab(self):
        self.open(CREW)
        self.choose(0, 0)
        wanted = {"file", "fix", "forbid", "cost", "change", "plan"}
        seen = set()
        self.browser.execute_script("document.activeElement.blur()")
        for _ in range(60):
            self.keys("TAB")
            seen.add(self.focused("id") or self.focused("href") or self.focused("role"))
        self.assertLessEqual(wanted | {f"{self.page.origin}/plan.xlsx", "gridcell"}, seen)

    def test_phone(self):
        """The page never scrolls sideways, however wide the table and long the names are; the table scrolls in itself."""
        self.open(CREW, width=360)
        long = "a name that goes on and on without an end " * 3
        tables = [("crew.csv", CREW.read_text()), ("wide.csv", table_of(25, 60, scattered)), ("long.csv", f"who,{long}1,{long.replace(' ', '_')}\n{long},1,2\n{long.replace(' ', '_')},2,3\n")]
        tables.append(("none.csv", WITHOUT_PLAN.read_text()))
        for width in (360, 320):
            self.resize(self.browser, width, 740)
            for name, text in tables:
                self.drop(name, text)
                if name == "long.csv":
                    self.find("#option-form").send_keys("matrix")
                    self.press("#fields button")
                self.choose(0, 0)
                for selector in ("#fix", "#plan"):
                    self.press(selector)
                with self.subTest(table=name, width=width):
                    self.assertLessEqual(self.browser.execute_script("return document.scrollingElement.scrollWidth"), width)
                    self.assertEqual(self.browser.execute_script("return [...document.querySelectorAll('button, input, h2')].filter((part) => part.offsetParent && !part.closest('.wide') && part.getBoundingClientRect().right > innerWidth).map((part) => part.id || part.textContent)"), [])


@in_browser
class Reactions(BrowserTest):
    """How long a planner waits, from a press to the plan that is shown.

    A machine of the gate may be slower than a planner's and has other work, so it may take MARGIN times as long.
    """

    MARGIN = 4
    REACTION = """
    const [done] = [arguments[0]], begin = performance.now();
    document.getElementById("plan").click();
    const look = () => document.body.getAttribute("aria-busy") === "true" ? requestAnimationFrame(look) : done((performance.now() - begin) / 1000);
    requestAnimationFrame(look);
    """

    def reactions(self, size, limit):
        """The first plan of a table of this size after it was chosen, and the next ones, until one is within the limit."""
        self.open()
        self.browser.set_script_timeout(120)
        self.write("table.csv", table_of(size, size, scattered))
        begin = time.monotonic()
        self.find("#file").send_keys(str(self.folder / "table.csv"))
        self.wait(lambda: self.text("#sentence").startswith("A best plan"))
        took = [time.monotonic() - begin]
        while len(took) == 1 or took[-1] > limit and len(took) < 12:
            self.choose(len(took), 0)
            cost = self.find("#cost")
            cost.clear()
            cost.send_keys("1")
            self.find("#change").click()
            took.append(self.browser.execute_async_script(self.REACTION))
        self.assertEqual(self.text("#fault"), "")
        print(f"{size} by {size}: the first plan after {took[0]:.2f} s, the next ones after {', '.join(f'{seconds:.2f}' for seconds in took[1:])} s")
        self.assertLessEqual(took[-1], self.MARGIN * limit)

    def test_300_by_300(self):
        self.reactions(300, 0.5)

    def test_2000_by_2000(self):
        self.reactions(2_000, 5)


if __name__ == "__main__":
    unittest.main()
