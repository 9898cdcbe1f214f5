"""Pages of `lorukinde page`, opened in Chromium: what is shown, to the eye and to a screen reader, with scripts and without. tools/page_tests.sh runs this."""
import os
import subprocess
import time
import unittest

from browser import Browser

ROOT = os.path.dirname(os.path.dirname(os.path.dirname(os.path.abspath(__file__))))
PAGES = os.path.join(ROOT, "target", "page")
WIDE, PHONE, NARROWEST = 1180, 380, 320

# README's sheet, with what its page is to show: which bytes are underlined, and which days of January 2021 are marked (document 00).
OPERATORS = "Mo-Fr 9-17; 2020 Dec 25-05 off; Sa 22:00-02:00"
CLOSED = [1, 2, 3, 4, 5]

HOSTILE = [
    "<script>window.hacked=1</script>",
    'Mo "<script>window.hacked=1</script>"',
    'Mo off "</p></section></main><img src=x onerror=window.hacked=1>"',
    "\"</title></style><svg onload='window.hacked=1'>\": Mo",
    'Mo "&lt;b&gt;&#60;script&#62;window.hacked=1&#60;/script&#62;"',
    "Tu '\"><iframe srcdoc=\"<script>parent.hacked=1</script>\">",
    "<!--",
    "]]><style>*{display:none}</style>",
    'We "`<b>`" ; `<i onclick=window.hacked=1>`',
    "javascript:window.hacked=1",
    'Th "\u202eexe.html \u2066\u2028"',
]


def page(name, sheets, *options):
    """A page of sheets, one a line, as the program writes it; the answer is its path."""
    path = os.path.join(PAGES, name + ".html")
    with open(path, "wb") as out:
        command = ["bash", os.path.join(ROOT, "tools", "lorukinde.sh"), "page", "--year", "2021", *options]
        ran = subprocess.run(command, input="".join(sheet + "\n" for sheet in sheets).encode(), stdout=out, check=False)
    if ran.returncode == 2:
        raise RuntimeError("the program could not do it")
    return path


# The days of a month that have a class, in the calendar of a rule.
MARKED = """
const [rule, month, kind] = arguments;
const table = document.querySelectorAll('#' + rule + ' table')[month - 1];
return [...table.querySelectorAll('td.' + kind)].map(cell => Number(cell.textContent));
"""

# The text of a sheet without the numbers that refer to what is said of it, and the pieces of it that are underlined or stand out.
SHEET = """
const sheet = document.querySelector('#' + arguments[0] + ' .sheet').cloneNode(true);
sheet.querySelectorAll('sup, small').forEach(some => some.remove());
const all = selector => [...sheet.querySelectorAll(selector)].map(some => some.textContent).join('');
return [sheet.textContent, all('u'), all('mark'), all('i')];
"""

# Whether a line is drawn under an element.
UNDERLINED = "return getComputedStyle(document.querySelector(arguments[0])).textDecorationLine"

# Colours as an eye without colours sees them: the contrasts (WCAG 2) of a day that is marked, to its number and to the page, and of one that is not.
CONTRASTS = """
const canvas = document.createElement('canvas').getContext('2d', {willReadFrequently: true});
const light = colour => {
    canvas.fillStyle = colour; canvas.fillRect(0, 0, 1, 1);
    const [r, g, b] = [...canvas.getImageData(0, 0, 1, 1).data].map(n => n / 255).map(n => n <= 0.04045 ? n / 12.92 : ((n + 0.055) / 1.055) ** 2.4);
    return 0.2126 * r + 0.7152 * g + 0.0722 * b;
};
const contrast = (a, b) => { const [x, y] = [light(a), light(b)]; return (Math.max(x, y) + 0.05) / (Math.min(x, y) + 0.05); };
const paper = getComputedStyle(document.body).backgroundColor;
const style = selector => getComputedStyle(document.querySelector(selector));
const marked = style('td.y'), other = style('td:not([class]):not([colspan])'), undecided = style('.h');
return [contrast(marked.color, marked.backgroundColor), contrast(marked.backgroundColor, paper), contrast(other.color, paper),
        contrast(undecided.color, paper), contrast(style('.bad').color, paper), contrast(style('small').color, paper)];
"""

# The elements that a page is made of.
ELEMENTS = """a article b body br caption code details div h1 h2 h3 head header html i li main mark meta nav ol p section small span style sup summary table tbody td
th title tr u ul""".split()


class Page(unittest.TestCase):
    @classmethod
    def setUpClass(cls):
        os.makedirs(PAGES, exist_ok=True)
        cls.browser = Browser(WIDE)
        cls.operators = page("operators", [OPERATORS])

    @classmethod
    def tearDownClass(cls):
        cls.browser.close()

    def tearDown(self):
        self.assertEqual(self.browser.console(), [], "the console has something to say")

    def open(self, path):
        self.browser.open(path)
        fetched = self.browser.run("return performance.getEntriesByType('resource').map(some => some.name)")
        self.assertEqual(fetched, [], "the page needs something from elsewhere")

    def shows_the_operators_sheet(self, browser):
        text, refused, place, _ = browser.run(SHEET, "s1")
        self.assertEqual((text, refused, place), (OPERATORS, "Mo-Fr 9-17", "9-17"))
        self.assertEqual(browser.run(UNDERLINED, ".sheet u"), "underline")
        self.assertEqual(browser.run(MARKED, "s1r1", 1, "y"), CLOSED)
        self.assertEqual([browser.run(MARKED, "s1r1", month, "y") for month in range(2, 13)], [[]] * 11)
        self.assertEqual(browser.run("return document.querySelectorAll('#s1r1 td.h').length"), 0)
        said = browser.run("return document.querySelector('#s1r1').innerText")
        for words in ["First day: Friday 25 December 2020", "Last day: Tuesday 5 January 2021", "Applies on 5 days of 2021: 1 to 5 January."]:
            self.assertIn(words, said)
        findings = browser.run("return document.querySelector('.findings').innerText")
        for words in ["write 09:00-17:00, not 9-17", "the 5th is in January 2021: the first 5th that does not come before 25 December 2020"]:
            self.assertIn(words, findings)

    def test_what_is_shown(self):
        self.open(self.operators)
        self.shows_the_operators_sheet(self.browser)
        self.assertLess(os.path.getsize(self.operators), 60_000)

    def test_without_scripts(self):
        with Browser(WIDE, scripts=False) as browser:
            browser.open(self.operators)
            self.shows_the_operators_sheet(browser)
            details = browser.run("const some = document.querySelector('details'); some.firstChild.click(); return some.open")
            self.assertFalse(details)
            self.assertEqual(browser.console(), [])

    def test_no_script_at_all(self):
        self.open(self.operators)
        self.assertEqual(self.browser.run("return document.scripts.length"), 0)

    def test_days_are_told_by_words_too(self):
        """What a screen reader is told of the cells of January, and of headings and tables."""
        self.open(self.operators)
        nodes = self.browser.devtools("Accessibility.getFullAXTree")["nodes"]
        named = [(node["role"]["value"], node.get("name", {}).get("value", "")) for node in nodes if not node.get("ignored")]
        cells = [name for role, name in named if role in ("cell", "gridcell")]
        self.assertEqual(cells[:8], ["", "1 closed", "2 closed", "3 closed", "4 closed", "5 closed", "6", "7"])
        self.assertIn("2 open", cells)
        tables = [name for role, name in named if role == "table"]
        self.assertEqual(tables[0], "January 2021")
        self.assertEqual(len(tables), 24)
        self.assertIn(("rowheader", "53"), named)
        self.assertIn(("columnheader", "Mo"), named)
        levels = self.browser.run("return [...document.querySelectorAll('h1, h2, h3')].map(some => some.tagName)")
        self.assertEqual(levels, ["H1", "H2", "H3", "H3"])
        self.assertEqual(self.browser.run("return document.documentElement.lang"), "en")

    def test_colours(self):
        path = page("colours", ["Mo; Tu off; We unknown; PH off; x"])
        self.open(path)
        for dark in (False, True):
            self.browser.colours(dark)
            for rule in ("s1r1", "s1r2", "s1r3"):
                script = CONTRASTS.replace("'td.y'", f"'#{rule} td.y'")
                number, on_paper, other, undecided, bad, small = self.browser.run(script)
                for contrast in (number, other, undecided, bad, small):
                    self.assertGreaterEqual(contrast, 4.5, (rule, dark))
                self.assertGreaterEqual(on_paper, 3, (rule, dark))
        self.browser.colours(False)
        signs = [self.browser.run(f"return getComputedStyle(document.querySelector('{cell}'), '::after').content[1]") for cell in
                 ("#s1r1 td.y", "#s1r2 td.y", "#s1r3 td.y", "#s1r4 td.h")]
        self.assertEqual(len(set(signs)), 4, signs)
        self.assertIn("gradient", self.browser.run("return getComputedStyle(document.querySelector('td.h')).backgroundImage"))

    def test_undecided_days_have_their_reason(self):
        sheets = {
            "PH off": "public holidays", "SH off": "school holidays", "easter off": "Easter", "Mo[1] off": "such weekdays", "Jan Mo[1] off": "such weekdays",
            "Jan 5 +1 day off": "moved", "2021 Jan 5-Jan 10 off": "one end has a year", "2021 Dec-Feb off": "backwards",
        }
        self.open(page("undecided", list(sheets)))
        for i, (sheet, reason) in enumerate(sheets.items(), 1):
            self.assertEqual(self.browser.run(f"return document.querySelectorAll('#s{i}r1 td.h').length"), 365, sheet)
            self.assertIn(reason, self.browser.run(f"return document.querySelector('#s{i}r1 ul').textContent"), sheet)

    def test_sheets_that_are_markup(self):
        path = page("hostile", HOSTILE)
        self.open(path)
        self.assertEqual(self.browser.run("return window.hacked === undefined"), True)
        elements = self.browser.run("return [...new Set([...document.querySelectorAll('*')].map(some => some.tagName.toLowerCase()))]")
        self.assertEqual([name for name in elements if name not in ELEMENTS], [])
        attributes = self.browser.run("return [...new Set([...document.querySelectorAll('body *')].flatMap(some => some.getAttributeNames()))].sort()")
        self.assertEqual([name for name in attributes if name not in "aria-labelledby class colspan dir href id open title".split()], [])
        self.assertEqual(self.browser.run("return document.querySelectorAll('main > section').length"), len(HOSTILE))
        for i, sheet in enumerate(HOSTILE, 1):
            shown = "".join("\ufffd" if letter in "\u202e\u2066\u2028" else letter for letter in sheet)
            self.assertEqual(self.browser.run(SHEET, f"s{i}")[0], shown)
        self.assertEqual(self.browser.run("return [...document.links].filter(some => !some.getAttribute('href').startsWith('#s')).length"), 0)

    def test_a_thousand_sheets(self):
        kinds = ["Mo-Fr 06:30-22:00; Sa,Su 08:00-20:00; 2020 Dec 25-05 off", "Mo-Su 09:00-21:00; PH off", "Mo-Fr 9-17; Sa 10:00-16:00; Dec 24-26 off"]
        path = page("thousand", [f"{kinds[i % 3]}; 2021 {month} {day} off" for i, (month, day) in enumerate(some_days(1000))])
        begin = time.monotonic()
        self.open(path)
        seconds = time.monotonic() - begin
        print(f"\na thousand sheets: {os.path.getsize(path):,} bytes, open after {seconds:.1f} s")
        self.assertEqual(self.browser.run("return document.querySelectorAll('main > section').length"), 1000)
        self.assertEqual(self.browser.run("return document.querySelectorAll('main details[open]').length"), 0)
        self.browser.run("document.querySelector('nav summary').click(); document.querySelector('nav ol a[href=\"#s900\"]').click()")
        self.assertLess(abs(self.browser.run("return document.querySelector('#s900').getBoundingClientRect().top")), 5)
        # A calendar that was shown before is linked to, and the link leads to a rule with the same words for its days.
        same = """
            const link = document.querySelector('#s900 article a'), to = document.querySelector(link.getAttribute('href'));
            const days = article => [...article.querySelectorAll('p')].map(some => some.textContent).find(some => some.startsWith('Applies'));
            return [days(link.closest('article')), days(to), to.querySelectorAll('td.y').length];
        """
        here, there, marked = self.browser.run(same)
        self.assertEqual(here, there)
        self.assertIn(f" {marked} days", here)

    def test_every_width(self):
        path = page("widths", [OPERATORS, "Mo,Tu,We" + ",Th" * 1000, 'Mo "' + "x" * 3000 + '"'])
        for width in (NARROWEST, PHONE, 768, WIDE):
            with Browser(width) as browser:
                browser.open(path)
                browser.run("document.querySelectorAll('details').forEach(some => some.open = true)")
                self.assertLessEqual(browser.run("return document.documentElement.scrollWidth"), width)

    def test_languages(self):
        for code, month, closed in (("de", "Januar 2021", "geschlossen"), ("fr", "janvier 2021", "fermé"), ("nl", "januari 2021", "gesloten")):
            self.open(page(code, [OPERATORS], "--language", code))
            self.assertEqual(self.browser.run("return document.documentElement.lang"), code)
            self.assertEqual(self.browser.run("return document.querySelector('caption').textContent"), month)
            self.assertIn(closed, self.browser.run("return document.querySelector('.key').textContent"))
            self.assertEqual(self.browser.run(MARKED, "s1r1", 1, "y"), CLOSED)
            self.assertEqual(self.browser.run("return document.querySelector('.findings span').lang"), "en")

    def test_pictures(self):
        for name, width, height, dark in (("page", WIDE, 900, False), ("page-phone", PHONE, 1100, True)):
            with Browser(width, dark=dark) as browser:
                browser.open(self.operators)
                browser.picture(os.path.join(PAGES, name + ".png"), height)
                self.assertEqual(browser.console(), [])

    def test_print(self):
        """On paper the calendars that are open are there, four months beside each other, and days keep their marks."""
        self.open(self.operators)
        self.browser.devtools("Emulation.setEmulatedMedia", media="print")
        columns = self.browser.run("return getComputedStyle(document.querySelector('.year')).gridTemplateColumns.split(' ').length")
        kept = self.browser.run("return getComputedStyle(document.querySelector('td.y')).printColorAdjust")
        self.browser.devtools("Emulation.setEmulatedMedia", media="")
        self.assertEqual((columns, kept), (4, "exact"))


def some_days(count):
    """So many days of the year, again and again."""
    days = [(month, day) for month in "Jan Feb Mar Apr May Jun Jul Aug Sep Oct Nov Dec".split() for day in range(1, 29)]
    return [days[i % len(days)] for i in range(count)]


if __name__ == "__main__":
    unittest.main()
