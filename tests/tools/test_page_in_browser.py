"""Tests of the page of outcomes in a real browser. They are skipped where no Chromium is installed."""

from __future__ import annotations

import os
import shutil
import tempfile
import unittest
from fractions import Fraction
from typing import Any

from browser import PROGRAM, Browser
from tables_for_tests import Node, Table, doors, page_of, row_of, table_of, throws, tree_of

SECONDS_TO_LOAD = 2  # of a processor, since a busy machine takes longer
PHONE, DESK = 390, 1400
TAB, ENTER, SPACE = ("Tab", 9, ""), ("Enter", 13, "\r"), (" ", 32, " ")
SHOWN_LABELS = """Array.from(document.querySelectorAll("#rows > details"))
    .filter((row) => row.offsetHeight > 0).map((row) => row.querySelector("b").textContent)"""
OPENED = 'Array.from(document.querySelectorAll("#rows > details"), (row) => row.open)'
VISIBLE = "(name) => document.querySelector(name).checkVisibility()"
# The focus, as its text or label, and whether a ring shows it.
FOCUS = """(() => { const at = document.activeElement; const style = getComputedStyle(at);
    return [at.getAttribute("aria-label") || at.textContent.slice(0, 20), style.outlineStyle !== "none"]; })()"""
# The contrast of the text and the background of an element, as WCAG 2 defines it.
CONTRAST = """((element) => {
    const numbers = (color) => color.match(/[0-9.]+/g).map(Number);
    const linear = (c) => (c /= 255) <= 0.04045 ? c / 12.92 : ((c + 0.055) / 1.055) ** 2.4;
    const light = ([r, g, b]) => 0.2126 * linear(r) + 0.7152 * linear(g) + 0.0722 * linear(b);
    let below = element;
    while (below && (numbers(getComputedStyle(below).backgroundColor)[3] ?? 1) === 0) below = below.parentElement;
    const colors = [getComputedStyle(element).color, getComputedStyle(below).backgroundColor];
    const [text, ground] = colors.map(numbers).map(light);
    return [(Math.max(text, ground) + 0.05) / (Math.min(text, ground) + 0.05), ground];
})"""


def lines() -> Table:
    """Rows whose order by chance, by text and by numbers in the text differ."""
    parts = {"SCORE 10": 4, "score 9": 3, "SCORE 100": 2, "A DRAW": 1}
    rows = [
        row_of(label, Fraction(part, 10), runs=part, transcript=f"HELLO\nGAME {part}\n{label}\n".encode())
        for label, part in parts.items()
    ]
    return table_of(rows)


def wide() -> Table:
    """A table with long words everywhere, and a deep tree with long numbers."""
    long = "WORD" * 400
    some = row_of(long, Fraction(2, 7**90), key=(long, long), ending="HOW", runs=10**12, first=(32767,) * 300,
                  transcript=f"{long}\n".encode() * 3)
    root = leaf = tree_of([32767])
    root.children = {32767: root.children[32767]}
    for _ in range(50):
        leaf = leaf.children[32767]
        leaf.bound, leaf.children = 32767, {32767: Node(leaf.chance / 32767, 10**9, None)}
    rows = [some, row_of("A", Fraction(1, 2), key=("A", "B"))]
    names = {"program": f"{long[:400]}.bas", "options": f"--choose {long[:400]}"}
    return table_of(rows, by=("ending", "last-line"), partial=True, answers_tree=root, **names)


def setUpModule() -> None:
    """Starts a browser for all tests, and makes a folder for pages."""
    if PROGRAM is None:
        raise unittest.SkipTest("no Chromium is installed")
    InBrowser.folder = tempfile.mkdtemp(prefix="ptb-pages-")
    unittest.addModuleCleanup(shutil.rmtree, InBrowser.folder)
    InBrowser.browser = Browser()
    unittest.addModuleCleanup(InBrowser.browser.close)


class InBrowser(unittest.TestCase):
    """What all tests do."""

    browser: Browser
    folder: str

    def setUp(self) -> None:
        self.browser.resize(DESK)
        self.browser.media()
        self.browser.scripts(True)

    def open(self, table: Table, **titles: str) -> None:
        """Opens the page of a table."""
        path = os.path.join(self.folder, "page.html")
        with open(path, "w", encoding="utf-8") as file:
            file.write(page_of(table, **titles))
        self.browser.open(path)

    def run_in_page(self, expression: str) -> Any:
        """The value of an expression of JavaScript."""
        return self.browser.run(expression)

    def all_open(self) -> None:
        """Opens all that can be opened."""
        self.run_in_page('for (const it of document.querySelectorAll("details")) it.open = true')

    def find(self, text: str) -> str:
        """Types a text into the search field. The result is the line that counts the rows found."""
        self.browser.click("#find")
        self.run_in_page('document.getElementById("find").select()')
        self.browser.type(text)
        return self.run_in_page('document.getElementById("found").textContent')


class Rows(InBrowser):
    """Rows open, and can be searched and sorted."""

    def test_a_click_opens_and_closes_a_row(self) -> None:
        self.open(doors())
        state = f'[{OPENED}, ({VISIBLE})("#rows pre")]'
        self.assertEqual(self.run_in_page(state), [[False, False], False])
        self.browser.click("#rows summary")
        self.assertEqual(self.run_in_page(state), [[True, False], True])
        shown = self.run_in_page('document.querySelector("#rows pre").innerText')
        self.assertTrue(shown.startswith("YOUR DOOR, 1 TO 3:1\n") and shown.endswith("THE PRIZE IS YOURS!\n"), shown)
        self.browser.click("#rows summary")
        self.assertEqual(self.run_in_page(OPENED), [False, False])

    def test_open_all(self) -> None:
        self.open(lines())
        self.browser.click("#open")
        self.assertEqual(self.run_in_page(OPENED), [True] * 4)
        self.assertEqual(self.run_in_page('document.getElementById("open").textContent'), "Close all")
        self.browser.click("#open")
        self.assertEqual(self.run_in_page(OPENED), [False] * 4)

    def test_open_all_opens_what_is_found(self) -> None:
        self.open(lines())
        self.find("draw")
        self.browser.click("#open")
        self.assertEqual(self.run_in_page(OPENED), [False, False, False, True])

    def test_search(self) -> None:
        self.open(lines())
        self.assertEqual(self.find("SCORE"), "3 of 4 rows: 90.00 %")
        self.assertEqual(self.run_in_page(SHOWN_LABELS), ["SCORE 10", "score 9", "SCORE 100"])
        self.assertEqual(self.find("score 9"), "1 of 4 rows: 30.00 %")
        self.assertEqual(self.find(" game 2 "), "1 of 4 rows: 20.00 %")
        self.assertEqual(self.run_in_page(SHOWN_LABELS), ["SCORE 100"])
        self.assertEqual(self.find("run ends"), "0 of 4 rows: 0.00 %")
        self.assertEqual(self.run_in_page(SHOWN_LABELS), [])
        self.assertEqual(self.find(" "), "")
        self.assertEqual(len(self.run_in_page(SHOWN_LABELS)), 4)

    def test_sort(self) -> None:
        self.open(lines())
        by_chance = ["SCORE 10", "score 9", "SCORE 100", "A DRAW"]
        self.assertEqual(self.run_in_page(SHOWN_LABELS), by_chance)
        self.browser.click("[data-sort=text]")
        self.assertEqual(self.run_in_page(SHOWN_LABELS), ["A DRAW", "score 9", "SCORE 10", "SCORE 100"])
        pressed = 'Array.from(document.querySelectorAll("[data-sort]"), (it) => it.ariaPressed)'
        self.assertEqual(self.run_in_page(pressed), ["false", "true"])
        self.browser.click("[data-sort=chance]")
        self.assertEqual(self.run_in_page(SHOWN_LABELS), by_chance)
        self.assertEqual(self.run_in_page(pressed), ["true", "false"])

    def test_sorted_rows_can_be_searched(self) -> None:
        self.open(lines())
        self.find("score")
        self.browser.click("[data-sort=text]")
        self.assertEqual(self.run_in_page(SHOWN_LABELS), ["score 9", "SCORE 10", "SCORE 100"])

    def test_a_bar_of_full_width_is_all(self) -> None:
        self.open(lines())
        self.assertEqual(self.widths(), [0.4, 0.3, 0.2, 0.1])
        self.open(table_of([row_of("A", Fraction(1))]))
        self.assertEqual(self.widths(), [1])

    def widths(self) -> list[float]:
        """The parts of their places that bars fill."""
        return self.run_in_page(
            """Array.from(document.querySelectorAll("summary .b"), (bar) => {
                const part = parseFloat(getComputedStyle(bar, "::before").width) / bar.getBoundingClientRect().width;
                return Math.round(1000 * part) / 1000; })"""
        )


class TreeOfAnswers(InBrowser):
    """The view of the tree."""

    def test_the_views(self) -> None:
        self.open(doors())
        shown = f'["#table", "#tree"].map({VISIBLE})'
        self.assertEqual(self.run_in_page(shown), [True, False])
        self.browser.click("[data-view=tree]")
        self.assertEqual(self.run_in_page(shown), [False, True])
        self.assertFalse(self.run_in_page(f'({VISIBLE})("#find")'))
        text = self.run_in_page('document.getElementById("tree").innerText')
        self.assertIn("Question 1: 1 to 3", text)
        self.assertIn("16.67 %", text)
        self.browser.click("[data-view=table]")
        self.assertEqual(self.run_in_page(shown), [True, False])

    def test_a_branch_opens_and_closes(self) -> None:
        self.open(throws(3, 6, 0))
        self.browser.click("[data-view=tree]")
        seen = """Array.from(document.querySelectorAll("#tree li"))
            .filter((it) => it.checkVisibility()).length"""
        self.assertEqual(self.run_in_page(seen), 7)
        self.browser.click("#tree summary")
        self.assertEqual(self.run_in_page(seen), 14)
        self.browser.click("#tree summary")
        self.assertEqual(self.run_in_page(seen), 7)

    def test_no_tree(self) -> None:
        self.open(lines())
        self.assertFalse(self.run_in_page(f'({VISIBLE})("[data-view]")'))
        self.assertEqual(self.browser.messages(), [])


class Keyboard(InBrowser):
    """Everything can be reached and used without a mouse, and the focus is seen."""

    def focus_after_tab(self) -> str:
        """What has the focus after Tab; it has a ring."""
        self.browser.press(*TAB)
        name, has_ring = self.run_in_page(FOCUS)
        self.assertTrue(has_ring, name)
        return name

    def test_order(self) -> None:
        self.open(doors())
        due = ["Table", "Tree of answers", "Search what is shown", "By chance", "By text", "Open all"]
        self.assertEqual([self.focus_after_tab() for _ in due], due)
        self.assertTrue(self.focus_after_tab().startswith("66.67 % 2/3"))
        for key, due_open in ((ENTER, True), (SPACE, False)):
            self.browser.press(*key)
            self.assertEqual(self.run_in_page(OPENED), [due_open, False])
        self.assertTrue(self.focus_after_tab().startswith("33.33 % 1/3"))

    def test_buttons(self) -> None:
        self.open(doors())
        for _ in range(5):
            self.browser.press(*TAB)
        self.browser.press(*ENTER)
        self.assertEqual(self.run_in_page(SHOWN_LABELS)[0], "NO. THE PRIZE IS BEHIND DOOR 1")
        self.browser.press(*TAB)
        self.browser.press(*SPACE)
        self.assertEqual(self.run_in_page(OPENED), [True, True])

    def test_tree(self) -> None:
        self.open(doors())
        for key in (TAB, TAB, ENTER):
            self.browser.press(*key)
        self.assertTrue(self.focus_after_tab().startswith("1 33.33 % 1/3"))
        self.browser.press(*ENTER)
        self.assertFalse(self.run_in_page('document.querySelector("#tree details").open'))


class Sizes(InBrowser):
    """Pages for a phone and for a desk."""

    def assert_fits(self, width: int) -> None:
        """Checks that nothing is wider than the screen when everything is open."""
        self.all_open()
        sizes = self.run_in_page("[document.documentElement.scrollWidth, innerWidth]")
        self.assertEqual(sizes, [width, width])

    def test_no_horizontal_scroll(self) -> None:
        for width in (320, PHONE, 721, DESK):
            self.browser.resize(width)
            for table in (doors(), lines(), wide()):
                self.open(table, title="Outcomes of " + "WORD" * 60)
                self.assert_fits(width)
                if table.answers_tree:
                    self.browser.click("[data-view=tree]")
                    self.assert_fits(width)

    def test_no_text_leaves_its_place(self) -> None:
        places = "dd, #rows span, #rows p, #rows pre, code, #tree summary, #tree div"
        outside = f"""Array.from(document.querySelectorAll("{places}"))
            .filter((it) => it.scrollWidth > it.clientWidth + 1 && getComputedStyle(it).display !== "inline")
            .map((it) => it.className + it.textContent.slice(0, 40))"""
        for width in (PHONE, DESK):
            self.browser.resize(width)
            self.open(wide())
            self.all_open()
            self.assertEqual(self.run_in_page(outside), [])

    def test_a_phone_has_the_bar_below_the_numbers(self) -> None:
        self.browser.resize(PHONE)
        self.open(doors())
        boxes = self.run_in_page(
            """["p", "f", "n", "b", "w"].map((name) => {
                const box = document.querySelector(`#rows .${name}`).getBoundingClientRect();
                return [box.left, box.top, box.right, box.bottom]; })"""
        )
        chance, exact, runs, bar, what = boxes
        self.assertTrue(chance[2] <= exact[0] <= runs[0] and max(chance[3], runs[3]) <= bar[1] <= bar[3] <= what[1])
        self.assertGreater(bar[2] - bar[0], 300)
        size = 'parseFloat(getComputedStyle(document.querySelector("#rows pre")).fontSize)'
        self.assertGreaterEqual(self.run_in_page(size), 14)

    def test_columns_are_in_line(self) -> None:
        self.open(wide())
        for name, side in (("b", "left"), ("w", "left"), ("n", "right"), ("p", "right")):
            places = self.run_in_page(
                f"""Array.from(document.querySelectorAll(".head .{name}, #rows .{name}"),
                    (it) => Math.round(it.getBoundingClientRect().{side}))"""
            )
            self.assertEqual((len(places), len(set(places))), (3, 1), (name, places))


class Looks(InBrowser):
    """Light, dark and paper."""

    def test_light_and_dark(self) -> None:
        texts = ["h1", "dt", "dd", ".notice", "button[aria-pressed=true]", "button[aria-pressed=false]"]
        texts += [".head .f", "#rows .p", "#rows .f", "#rows b", "#rows small", "#rows i", "#rows .n"]
        texts += [".o p", "pre", "code", "footer p"]
        for scheme, is_dark in (("light", False), ("dark", True)):
            self.browser.media(scheme)
            self.open(wide())
            self.all_open()
            for text in texts:
                contrast, ground = self.run_in_page(f"{CONTRAST}(document.querySelector({text!r}))")
                self.assertGreaterEqual(contrast, 4.5, (scheme, text))
                if "true" not in text:
                    self.assertEqual(ground < 0.2, is_dark, (scheme, text))

    def test_bars_are_seen(self) -> None:
        for scheme in ("light", "dark"):
            self.browser.media(scheme)
            self.open(doors())
            bar, track = self.run_in_page(
                """["::before", null].map((part) =>
                    getComputedStyle(document.querySelector("summary .b"), part).backgroundColor)"""
            )
            self.assertNotEqual(bar, track)

    def test_paper(self) -> None:
        self.browser.media("dark", "print")
        self.open(doors())
        self.run_in_page('document.querySelector("#rows details").open = true')
        parts = ["#tools", "#rows pre", "#rows summary", "h1"]
        self.assertEqual(self.run_in_page(f"{parts}.map({VISIBLE})"), [False, True, True, True])
        ink = self.run_in_page('getComputedStyle(document.body).color.match(/[0-9]+/g).map(Number)')
        self.assertLess(max(ink), 80)
        pages = self.browser.call("Page.printToPDF", printBackground=True)["data"]
        self.assertGreater(len(pages), 1000)


class Alone(InBrowser):
    """A page needs no network and no script, and runs nothing of a program."""

    def test_no_messages_and_no_requests(self) -> None:
        for table in (doors(), lines(), wide()):
            self.open(table)
            self.find("A")
            self.browser.click("[data-sort=text]")
            self.browser.click("#open")
            if table.answers_tree:
                self.browser.click("[data-view=tree]")
            self.assertEqual((self.browser.messages(), self.browser.requests()), ([], []))

    def test_signs_of_html_are_texts(self) -> None:
        signs = "</title></pre></script><b onclick=x>\"'&amp;<img src=x onerror='document.title=1'>"
        signs += "<script>document.title=2</script>"
        some = row_of(signs, Fraction(1), ending=f"!{signs}", transcript=f"{signs}\n".encode() * 3)
        table = table_of([some], by=(signs,), program=signs, options=signs, answers_tree=tree_of([1]))
        self.open(table, title=signs, date=signs)
        self.all_open()
        self.assertEqual(self.run_in_page("document.title"), f"{signs} (1 run)")
        self.assertEqual(self.run_in_page('document.querySelectorAll("img, [onclick], script, b b").length'), 1)
        self.assertEqual(self.run_in_page('document.querySelector("#rows pre").textContent'), f"{signs}\n" * 3)
        self.assertEqual(self.run_in_page('document.querySelector("#rows b").textContent'), signs)
        self.assertEqual((self.browser.messages(), self.browser.requests()), ([], []))

    def test_without_script(self) -> None:
        self.browser.scripts(False)
        self.open(doors())
        self.browser.click("#rows summary")
        parts = ["#tools", "#rows pre", "#tree", "#tree h2"]
        self.assertEqual(self.run_in_page(f"{parts}.map({VISIBLE})"), [False, True, True, True])


class Fast(InBrowser):
    """A page of a large tree."""

    def test_a_tree_of_100000_runs_is_loaded_in_time(self) -> None:
        self.browser.call("Performance.enable", timeDomain="threadTicks")
        self.open(throws())
        self.run_in_page("document.body.offsetHeight")
        metrics = self.browser.call("Performance.getMetrics")["metrics"]
        seconds = next(metric["value"] for metric in metrics if metric["name"] == "TaskDuration")
        self.assertTrue(0 < seconds < SECONDS_TO_LOAD, seconds)
        self.assertEqual(len(self.run_in_page(SHOWN_LABELS)), 1000)
        self.assertEqual(self.browser.messages(), [])


if __name__ == "__main__":
    unittest.main()
