"""The pages for people who use only the keyboard or have low vision: each control has a name and shows its focus, and
each text has enough contrast, light and dark. The tests check the styles that the browser computes; nothing is fetched.
Skipped without chromium (Debian: apt-get install chromium)."""

import tempfile
from collections.abc import Iterator
from pathlib import Path
from typing import Any

import pytest

from tests.program.nrdb.common.devtools import Chromium, Page
from tests.program.nrdb.common.support import EXAMPLES
from tests.program.nrdb.common.web_support import Web

from .test_calls_page import opened
from .test_timeline_page import page_of

pytestmark = pytest.mark.together

TEXT, LARGE, EDGE = (
    4.5,
    3.0,
    3.0,
)  # the minimum contrast ratios of WCAG 2.1 for text, large text and the focus indicator
PLACES = {"timeline": "real/hijacked.jsonl", "hanging": "real/hung.jsonl"}

# Each visible text: its words, its colour, its background, and its size.
TEXTS = """
(() => {
  const parts = (colour) => colour.match(/[\\d.]+/g).map(Number);
  const over = (top, below) => { const [r, g, b, a = 1] = top; return [r, g, b].map((one, at) => one * a + below[at] * (1 - a)); };
  const behind = (one) => {
    const grounds = [];
    for (let at = one; at; at = at.parentElement) grounds.push(parts(getComputedStyle(at).backgroundColor));
    return grounds.reverse().reduce((below, top) => over(top, below), [255, 255, 255]);
  };
  const found = [];
  for (const one of document.querySelectorAll("body *")) {
    const style = getComputedStyle(one), box = one.getBoundingClientRect();
    const words = [...one.childNodes].filter((node) => node.nodeType === 3).map((node) => node.data.trim()).join("");
    if (!words || !box.width || !box.height || style.visibility === "hidden" || ["SCRIPT", "STYLE"].includes(one.tagName)) continue;
    const ground = behind(one);
    found.push([words.slice(0, 40), over(parts(style.color), ground), ground, parseFloat(style.fontSize), Number(style.fontWeight)]);
  }
  return found;
})()
"""

# The controls without a name.
NAMELESS = """
[...document.querySelectorAll("button, input, canvas, [tabindex], a[href], select, textarea")]
  .filter((one) => one.getClientRects().length && !(one.getAttribute("aria-label") || one.innerText?.trim() || one.labels?.[0]?.innerText.trim()))
  .map((one) => one.outerHTML.slice(0, 120))
"""

# The focused element: its name, and its outline.
FOCUSED = """
(() => { const one = document.activeElement, style = getComputedStyle(one), box = one.getBoundingClientRect();
  return one === document.body ? null : { is: one.id || one.textContent.slice(0, 30), style: style.outlineStyle, wide: parseFloat(style.outlineWidth),
    colour: style.outlineColor, seen: box.width > 0 && box.height > 0 }; })()
"""

# The colours of texts on the canvas, each with its background.
INKS = """
(() => {
  const { ink, shadeOf } = inside, pairs = [];
  for (const name of ["ink", "soft", "accent", "bad", "due"]) pairs.push([`${name} on ground`, ink[name], ink.ground]);
  for (const name of ["soft", "bad"]) pairs.push([`${name} on head`, ink[name], ink.head]);
  for (const name of ["ink", "soft", "accent"]) pairs.push([`${name} on panel`, ink[name], ink.panel]);
  pairs.push(["on-bad on bad", ink["on-bad"], ink.bad]);
  for (const [name, colour] of Object.entries(shadeOf)) pairs.push([`text on ${name}`, inside.textOn(colour), colour]);
  return pairs;
})()
"""


def contrast(item: list[float], other: list[float]) -> float:
    """The contrast of two colours, from 1 to 21, by WCAG 2.1."""
    lights = sorted((luminance(item), luminance(other)))
    return (lights[1] + 0.05) / (lights[0] + 0.05)


def luminance(colour: list[float]) -> float:
    parts = [part / 255 for part in colour[:3]]
    red, green, blue = (part / 12.92 if part <= 0.04045 else ((part + 0.055) / 1.055) ** 2.4 for part in parts)
    return 0.2126 * red + 0.7152 * green + 0.0722 * blue


def parsed(colour: str) -> list[float]:
    """The parts of a colour as `#rrggbb`."""
    return [int(colour[at : at + 2], 16) for at in (1, 3, 5)]


def shown(chromium: Chromium, address: str) -> Iterator[tuple[str, Page]]:
    """The page in light and in dark colours."""
    for scheme in ("light", "dark"):
        page = chromium.page("about:blank")
        page.does("Emulation.setEmulatedMedia", features=[{"name": "prefers-color-scheme", "value": scheme}])
        page.does("Page.navigate", url=address)
        page.until("document.getElementById('panel')?.innerText.includes('position')")
        yield scheme, page
        assert page.wrongs() == []


def timelines(chromium: Chromium, pages: dict[str, str]) -> Iterator[tuple[str, Page]]:
    with tempfile.TemporaryDirectory() as folder:
        for name, text in pages.items():
            file = Path(folder) / f"{name}.html"
            names = "ink, shadeOf, textOn"
            file.write_text(
                opened(text).replace("window.inside = {", f"window.inside = {{ {names},", 1), encoding="utf-8"
            )
            yield from ((f"{name}, {scheme}", page) for scheme, page in shown(chromium, f"file://{file}"))


def expect_texts(name: str, page: Page) -> None:
    texts: list[Any] = page.value(TEXTS)
    assert len(texts) > 25
    for words, colour, ground, size, weight in texts:
        least = LARGE if size >= 24 or (size >= 18.5 and weight >= 700) else TEXT
        assert round(contrast(colour, ground), 2) >= least, (name, words, colour, ground)


def expect_keyboard(name: str, page: Page, least: int) -> None:
    """Checks that Tab goes to each control in turn, and that each shows its focus."""
    assert page.value(NAMELESS) == [], name
    ground, seen = page.value("getComputedStyle(document.body).backgroundColor"), []
    page.value("document.getElementById('find').focus()")
    for turn in range(60):
        for sort in ("rawKeyDown", "keyUp") if turn else ():
            page.does("Input.dispatchKeyEvent", type=sort, key="Tab", code="Tab", windowsVirtualKeyCode=9)
        if (focused := page.value(FOCUSED)) is None or focused["is"] in seen:
            break
        seen.append(focused["is"])
        assert focused["seen"] and focused["style"] != "none" and focused["wide"] >= 2, (name, focused)
        parts = [
            [float(item) for item in text[text.index("(") + 1 : -1].split(",")] for text in (focused["colour"], ground)
        ]
        assert contrast(*parts) >= EDGE, (name, focused)
    assert len(seen) >= least, (name, seen)


@pytest.fixture(scope="module")
def pages() -> dict[str, str]:
    return {name: page_of(EXAMPLES / path) for name, path in PLACES.items()}


def test_texts_of_the_timeline_stand_out(chromium: Chromium, pages: dict[str, str]) -> None:
    for name, page in timelines(chromium, pages):
        expect_texts(name, page)
        page.value("document.getElementById('about').click()")
        expect_texts(f"{name}, help", page)


def test_texts_of_the_picture_stand_out(chromium: Chromium, pages: dict[str, str]) -> None:
    for name, page in timelines(chromium, pages):
        pairs = page.value(INKS)
        assert len(pairs) > 30
        for what, colour, ground in pairs:
            assert round(contrast(parsed(colour), parsed(ground)), 2) >= TEXT, (name, what)


def test_controls_of_the_timeline_have_names_and_show_the_keyboard(chromium: Chromium, pages: dict[str, str]) -> None:
    for name, page in timelines(chromium, pages):
        expect_keyboard(name, page, 14)


def test_the_page_of_a_session(chromium: Chromium) -> None:
    with Web(EXAMPLES / "real/hijacked.jsonl") as web:
        for name, page in shown(chromium, str(web.address)):
            page.value("document.getElementById('line').focus()")
            page.types("info suspects")
            page.until("document.getElementById('log').innerText.includes('next:')")
            expect_texts(f"session, {name}", page)
            for wide in (1280, 400):
                page.does(
                    "Emulation.setDeviceMetricsOverride", width=wide, height=800, deviceScaleFactor=1, mobile=False
                )
                hidden = page.value(
                    "(() => { const bar = document.getElementById('moves'); return bar.scrollWidth - bar.clientWidth })()"
                )
                assert hidden == 0, (name, wide)
            page.does("Emulation.clearDeviceMetricsOverride")
            expect_keyboard(f"session, {name}", page, 14)


def test_a_contrast_that_is_too_low_is_found(chromium: Chromium, pages: dict[str, str]) -> None:
    assert contrast([0, 0, 0], [255, 255, 255]) == pytest.approx(21, abs=5e-8)
    assert contrast([119, 119, 119], [255, 255, 255]) == pytest.approx(4.48, abs=5e-3)
    name, page = next(timelines(chromium, pages))
    page.value("document.querySelector('#suspects button').style.color = '#999999'")
    with pytest.raises(AssertionError):
        expect_texts(name, page)
    page.value("document.getElementById('axis').style.outline = 'none'")
    with pytest.raises(AssertionError):
        expect_keyboard(name, page, 14)
