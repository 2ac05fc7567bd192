"""The page in real Chromium: what it loads and runs, how fast it is, and whether it can be read and used."""
from __future__ import annotations

import html.parser
import os
from collections.abc import Iterator
from pathlib import Path
from typing import Optional

import pytest

import chromium
from cqd_client import page
from cqd_client.findings import Report
from reports import HOSTILE, hostile, large, report_with, two_places

GROUPS = 5_000
FIRST_PAINT = 1_000
FILTER = 100

VOID = {"meta", "link", "br", "hr", "img", "input", "wbr", "col"}


@pytest.fixture(scope="module")
def browser() -> Iterator[chromium.Chromium]:
    if not chromium.PROGRAM:
        pytest.skip("chromium is missing")
    with chromium.Chromium() as found:
        yield found


def written(report: Report, folder: Path) -> Path:
    file = folder / "page.html"
    with open(file, "w", encoding="utf-8") as out:
        page.write(report, out)
    return file


@pytest.fixture(scope="module")
def large_page(tmp_path_factory: pytest.TempPathFactory) -> Path:
    return written(large(GROUPS), tmp_path_factory.mktemp("large"))


@pytest.fixture
def hostile_page(tmp_path: Path) -> Path:
    return written(hostile(), tmp_path)


# -------------------------------------------------------------------------------------------------- what it is


class Nesting(html.parser.HTMLParser):
    """Takes a page whose elements are all closed, in order, and whose ids are unique."""

    def __init__(self) -> None:
        super().__init__()
        self.open: list[str] = []
        self.ids: set[Optional[str]] = set()
        self.loaded: list[Optional[str]] = []

    def handle_starttag(self, tag: str, attrs: list[tuple[str, Optional[str]]]) -> None:
        if tag not in VOID:
            self.open.append(tag)
        found = dict(attrs)
        assert len(found) == len(attrs)
        if "id" in found:
            assert found["id"] not in self.ids
            self.ids.add(found["id"])
        assert not any(name.startswith("on") or name == "style" for name in found)
        self.loaded += [value for name, value in attrs if name in ("src", "href", "data", "action") and value and value[0] != "#"]

    def handle_endtag(self, tag: str) -> None:
        assert self.open and self.open[-1] == tag, f"</{tag}> in {self.open}"
        self.open.pop()


@pytest.mark.parametrize("report", [hostile(), two_places(), Report("empty", 0), report_with({}, (), verdict="OK")],
                         ids=["hostile", "two", "empty", "passed"])
def test_it_is_well_formed_and_names_nothing_to_load(report: Report, tmp_path: Path) -> None:
    text = written(report, tmp_path).read_text(encoding="utf-8")
    assert text.lower().startswith("<!doctype html>")
    nesting = Nesting()
    nesting.feed(text)
    nesting.close()
    assert not nesting.open and not nesting.loaded
    assert text.count("<script") == 3 and "default-src &#39;none&#39;;" in text and "unsafe" not in text.split("</head>")[0]


@pytest.mark.parametrize("report", [hostile(), Report("empty", 0), report_with({}, (), verdict="OK")], ids=["hostile", "empty", "passed"])
def test_it_asks_for_nothing_and_runs_nothing_of_the_data(browser: chromium.Chromium, report: Report, tmp_path: Path) -> None:
    browser.look(1280)
    browser.open(written(report, tmp_path))
    browser.run("document.querySelectorAll('details').forEach(one => { one.open = true; })")
    browser.run("new Promise(done => setTimeout(done, 100))")
    assert browser.problems() == []
    assert browser.run("[typeof hacked, document.scripts.length, document.images.length, document.querySelectorAll('s,u,i').length]") \
        == ["undefined", 3, 0, 0]


def test_hostile_names_are_shown_as_they_are(browser: chromium.Chromium, hostile_page: Path) -> None:
    browser.look(1280)
    browser.open(hostile_page)
    text = browser.run("document.body.innerText")
    assert HOSTILE[0] in text and "{{7*7}}" in text and "\\u202ecod.c" in text
    assert not any(character in text for character in "\u202e\x1b")
    options = browser.run("Array.from(document.querySelectorAll('.code select option'), one => one.textContent)")
    assert len(options) == 2 * len(HOSTILE) and any("%41.c" in option for option in options)


# ------------------------------------------------------------------------------------------------ what it shows


def test_lines_with_the_same_tokens_are_side_by_side(browser: chromium.Chromium, tmp_path: Path) -> None:
    browser.look(1280)
    browser.open(written(two_places(), tmp_path))
    sides = browser.run("Array.from(document.querySelectorAll('.code pre'), pre => Array.from(pre.querySelectorAll('.l'), "
                        "line => (line.dataset.n || '') + ' ' + line.textContent))")
    assert [side[0] for side in sides] == ["3 int sum(int n) {", "2 int sum(int n) { int s = 0;"]
    assert len(sides[0]) == len(sides[1])
    assert browser.run("document.querySelectorAll('mark').length") == 0


def test_what_differs_within_equal_tokens_is_marked(browser: chromium.Chromium, tmp_path: Path) -> None:
    report = two_places(second="int other;\nint add(int n) {\n  int t = 0; for (int i = 0; i < n; i++) t += i; return t; } int x;\n"
                        .replace("add(", "sum("))
    browser.look(1280)
    browser.open(written(report, tmp_path))
    assert browser.run("Array.from(document.querySelectorAll('mark'), mark => mark.textContent)") == ["s"] * 3 + ["t"] * 3
    outside = browser.run("Array.from(document.querySelectorAll('.o'), one => one.textContent)")
    assert outside == [" int x;"]


def test_each_group_has_an_address(browser: chromium.Chromium, large_page: Path) -> None:
    browser.look(1280)
    browser.open(large_page, f"#g{GROUPS - 289}")
    shown = "(() => { const row = document.getElementById('g%d'); const box = row.getBoundingClientRect(); " \
            "return [row.querySelector('details').open, box.top >= 0 && box.top < innerHeight]; })()"
    assert browser.run(shown % (GROUPS - 289)) == [True, True]
    browser.run("location.hash = '#g7'")
    browser.run("new Promise(done => setTimeout(done, 100))")
    assert browser.run(shown % 7) == [True, True]


def test_all_groups_are_reached_by_scrolling_and_by_buttons(browser: chromium.Chromium, tmp_path: Path) -> None:
    browser.look(1280)
    browser.open(written(large(200), tmp_path), "#g150")
    rows = "document.querySelectorAll('#groups > li').length"
    for _ in range(20):
        browser.run("document.getElementById('before').click(); scrollTo(0, document.body.scrollHeight)")
        browser.run("new Promise(done => setTimeout(done, 30))")
    assert browser.run(rows) == 200
    assert browser.run("new Set(Array.from(document.querySelectorAll('#groups > li'), row => row.id)).size") == 200


def test_without_scripts_all_groups_are_listed(browser: chromium.Chromium, large_page: Path) -> None:
    browser.scripts(False)
    try:
        browser.look(1280)
        browser.open(large_page)
        assert browser.run("document.querySelectorAll('.plain > li').length") == GROUPS
        assert browser.run("getComputedStyle(document.querySelector('.tools')).display") == "none"
    finally:
        browser.scripts(True)


def test_folders_files_search_and_order_choose_groups(browser: chromium.Chromium, large_page: Path) -> None:
    browser.look(1280)
    browser.open(large_page)
    count = "document.getElementById('count').textContent"
    browser.run("document.querySelector('.map a[data-folder=\"src/part3\"], .map a[data-folder^=\"src/part3/\"]').click()")
    assert browser.run(count).endswith(" of 5,000")
    assert browser.run("document.activeElement.id") == "duplicates"
    rows = "Array.from(document.querySelectorAll('#groups summary'), row => row.textContent)"
    assert all("src/part3/" in row or "more place" in row for row in browser.run(rows))
    browser.run("document.querySelector('a[data-file]').click()")
    file = browser.run("document.querySelector('a[data-file]').dataset.file")
    name = file.rpartition("/")[2]
    assert all(name in row or "more place" in row for row in browser.run(rows))
    browser.run("(() => { const query = document.getElementById('query'); query.value = 'no such path'; "
                "query.dispatchEvent(new Event('input')); })()")
    assert browser.run(count) == "0 of 5,000" and browser.run("document.querySelectorAll('#groups > li').length") == 0


# -------------------------------------------------------------------------------------------------- how fast


@pytest.mark.skipif(not os.environ.get("CQD_TIMING"), reason="times need an idle machine: set CQD_TIMING=1")
def test_five_thousand_groups_do_not_stall(browser: chromium.Chromium, large_page: Path) -> None:
    """The best of some tries: the test is of the page, not of what else the machine does."""
    browser.look(1280)
    paints = []
    for _ in range(4):
        browser.open(large_page)
        paints.append(browser.run("new Promise(done => new PerformanceObserver(list => list.getEntriesByName('first-contentful-paint')"
                                  ".forEach(paint => done(paint.startTime))).observe({ type: 'paint', buffered: true }))"))
    assert min(paints) < FIRST_PAINT, paints
    filtered = """(async () => {
        const query = document.getElementById('query'), times = [];
        for (const text of ['part1', '', 'deep3', 'file12', 'part1', '']) {
            const start = performance.now();
            query.value = text;
            query.dispatchEvent(new Event('input'));
            document.body.getBoundingClientRect();
            times.push(performance.now() - start);
            await new Promise(done => requestAnimationFrame(() => setTimeout(done, 20)));
        }
        return times;
    })()"""
    tries = [browser.run(filtered) for _ in range(4)]
    assert max(map(min, zip(*tries))) < FILTER, tries


# ------------------------------------------------------------------------------------- who can read and use it

CONTRAST = """(() => {
    const parsed = (text) => { const found = text.match(/[\\d.]+/g).map(Number); return found.length < 4 ? [...found, 1] : found; };
    const over = (top, below) => [0, 1, 2].map((at) => top[at] * top[3] + below[at] * (1 - top[3])).concat(1);
    const light = (color) => {
        const [red, green, blue] = color.map((part) => (part /= 255) <= .04045 ? part / 12.92 : ((part + .055) / 1.055) ** 2.4);
        return .2126 * red + .7152 * green + .0722 * blue;
    };
    const low = {};
    const walker = document.createTreeWalker(document.body, NodeFilter.SHOW_TEXT);
    while (walker.nextNode()) {
        const element = walker.currentNode.parentElement;
        if (!walker.currentNode.data.trim() || !element.checkVisibility() || element.closest('.unseen, .skip, script, noscript, option')) continue;
        let below = [], opacity = 1;
        for (let at = element; at; at = at.parentElement) {
            const style = getComputedStyle(at);
            below.push(parsed(style.backgroundColor));
            opacity *= style.opacity;
        }
        const back = below.reverse().reduce((color, next) => over(next, color), [255, 255, 255, 1]);
        const ink = parsed(getComputedStyle(element).color);
        const front = over([ink[0], ink[1], ink[2], ink[3] * opacity], back);
        const [one, two] = [light(front), light(back)].sort((a, b) => b - a);
        const ratio = (one + .05) / (two + .05);
        if (ratio < 4.5) low[element.className + ' ' + element.tagName + ' in ' + element.parentElement.className] = ratio;
    }
    return low;
})()"""


BROKEN_NUMBERS = """Array.from(document.querySelectorAll('.number')).filter(cell => {
    const range = document.createRange(), whole = cell.getBoundingClientRect();
    range.selectNodeContents(cell);
    const lines = Array.from(range.getClientRects());
    return lines.length > 1 || lines.some(line => line.left < whole.left - 1 || line.right > whole.right + 1);
}).map(cell => cell.textContent)"""


@pytest.mark.parametrize("dark", [False, True], ids=["light", "dark"])
@pytest.mark.parametrize("width", [1280, 360])
def test_it_fits_and_all_text_has_contrast(browser: chromium.Chromium, hostile_page: Path, tmp_path_factory: pytest.TempPathFactory,
                                           width: int, dark: bool) -> None:
    marked = two_places(second="int other;\nint sum(int n) {\n  int t = 0; /* zero */ for (int i = 0; i < n; i++) t += i; return t; } int x;\n")
    for file in (hostile_page, written(marked, tmp_path_factory.mktemp("marked")), written(large(90), tmp_path_factory.mktemp("map"))):
        browser.look(width, dark=dark)
        browser.open(file)
        browser.run("document.querySelectorAll('details').forEach((one, at) => { one.open = at < 9; })")
        browser.run("new Promise(done => setTimeout(done, 100))")
        assert browser.run("document.documentElement.scrollWidth") <= width
        assert browser.run(CONTRAST) == {}
        assert browser.run(BROKEN_NUMBERS) == []


def test_the_keyboard_opens_a_group_and_sees_where_it_is(browser: chromium.Chromium, large_page: Path) -> None:
    browser.look(1280)
    browser.open(large_page)
    browser.press("Tab")
    assert browser.run("[document.activeElement.className, document.activeElement.getBoundingClientRect().top >= 0]") == ["skip", True]
    browser.press("Enter")
    browser.run("document.querySelector('#g2 .anchor').focus()")
    browser.press("Tab")
    assert browser.run("document.activeElement.tagName") == "SUMMARY"
    assert browser.run("getComputedStyle(document.activeElement).outlineStyle") != "none"
    browser.press("Enter")
    browser.run("new Promise(done => setTimeout(done, 100))")
    assert browser.run("document.querySelectorAll('#g2 .code pre').length") == 2


def test_a_screen_reader_finds_landmarks_headings_and_names(browser: chromium.Chromium, hostile_page: Path) -> None:
    browser.look(1280)
    browser.open(hostile_page)
    browser.call("Accessibility.enable")
    nodes = [node for node in browser.call("Accessibility.getFullAXTree")["nodes"] if not node.get("ignored")]
    named = [(node["role"]["value"], node.get("name", {}).get("value", "")) for node in nodes]
    roles = {role for role, _ in named}
    assert {"banner", "main", "search", "contentinfo", "region", "table", "searchbox"} <= roles
    for role, name in named:
        if role in ("link", "button", "searchbox", "combobox", "DisclosureTriangle", "heading", "region"):
            assert name.strip(), role
    assert any(role == "link" and ("of 13 lines" in name or "duplicated" in name) for role, name in named)
