"""Work with the page of `nrdb --web`: moves by buttons and keys, completion, nrdb's suggestions, lines that survive a
reload, the reason why a page waits, and a long run whose parts load when zooming. Skipped without chromium (Debian:
apt-get install chromium)."""

import re
import subprocess
import time
from pathlib import Path

import pytest

from tests.program.nrdb.common.browser import PATIENCE
from tests.program.nrdb.common.devtools import LOADED, Chromium, Page
from tests.program.nrdb.common.support import EXAMPLES
from tests.program.nrdb.common.web_support import Web
from tests.program.support.sharing import ROOT

from .test_web_page import current_position, says

pytestmark = pytest.mark.together

HIJACKED = EXAMPLES / "real/hijacked.jsonl"
LONG = 100_000  # steps
LINE, BUSY = "document.getElementById('line')", "document.getElementById('busy')"
CODES = {"Tab": 9, "Escape": 27, "ArrowUp": 38}


def presses(page: Page, key: str) -> None:
    """Presses a key, as a person would."""
    for sort in ("rawKeyDown", "keyUp"):
        page.does("Input.dispatchKeyEvent", type=sort, key=key, code=key, windowsVirtualKeyCode=CODES[key])


def writes(page: Page, text: str) -> None:
    """Replaces the text of the line."""
    page.value(f"{LINE}.focus(); {LINE}.value = ''")
    page.does("Input.insertText", text=text)


def test_moves_by_buttons_and_keys(chromium: Chromium) -> None:
    with Web(HIJACKED) as web:
        page = chromium.opened(web)
        for at, button in ((1, "stepi"), (0, "reverse-stepi"), (216, "continue"), (0, "reverse-continue")):
            page.clicks(f"#moves [data-line={button}]")
            current_position(page, at, 216)
        page.value("document.getElementById('picture').focus()")
        for key, at in ((">", 1), (">", 2), ("<", 1), ("}", 216), ("{", 0)):
            page.value(
                f"document.getElementById('picture').dispatchEvent(new KeyboardEvent('keydown', {{ key: '{key}', bubbles: true }}))"
            )
            current_position(page, at, 216)
        assert page.wrongs() == []


def test_tab_completes_and_never_holds_the_keyboard(chromium: Chromium) -> None:
    with Web("-ex", "goto 100", HIJACKED) as web:
        page = chromium.opened(web)
        for typed, wanted in (
            ("reverse-f", "reverse-finish "),
            ("stepi; info susp", "stepi; info suspects "),
            ("print gor", "print gor "),
        ):
            writes(page, typed)
            presses(page, "Tab")
            page.until(f"{LINE}.value === '{wanted}'")
        presses(page, "Tab")
        page.until(f"{BUSY}.innerText.split(/ +/).join(' ') === '0 1 2 3'")
        writes(page, "info s")
        presses(page, "Tab")
        page.until(f"{BUSY}.innerText.includes('sockets')")
        assert page.value("document.activeElement.id") == "line"
        presses(page, "Escape")
        presses(page, "Tab")
        assert page.value("document.activeElement.id") != "line"
        writes(page, "")
        presses(page, "Tab")
        assert page.value("document.activeElement.id") != "line"


def test_what_nrdb_says_to_look_at_is_a_button(chromium: Chromium) -> None:
    with Web(HIJACKED) as web:
        page = chromium.opened(web)
        writes(page, "info suspects")
        page.presses("Enter", "\r")
        page.until("document.querySelector('#log button') !== null")
        assert page.value("document.querySelector('#log button').innerText") == "goto 186; history wd 2"
        page.clicks("#log button")
        current_position(page, 186, 216)
        says(page, "45061869 -> -1")
        page.value("document.querySelectorAll('#panel .looks button')[1].click()")
        says(page, "browser 1> history wd 2")


def test_typed_lines_outlive_a_reload(chromium: Chromium) -> None:
    with Web(HIJACKED) as web:
        page = chromium.opened(web)
        for line in ("stepi 3", "print clock"):
            writes(page, line)
            page.presses("Enter", "\r")
            says(page, f"browser 1> {line}")
        page.does("Page.reload")
        page.until(
            r"/^browser (?!1>)\d+>$/.test(document.getElementById('you')?.innerText)"
        )  # (the next position, or the one after it)
        page.value(f"{LINE}.focus()")
        presses(page, "ArrowUp")
        assert page.value(f"{LINE}.value") == "print clock"
        presses(page, "ArrowUp")
        assert page.value(f"{LINE}.value") == "stepi 3"
        says(page, "at 3")


@pytest.mark.alone
def test_a_long_run_is_there_at_once_and_its_parts_as_one_zooms(folder: Path, chromium: Chromium) -> None:
    path = folder / "mix.jsonl"
    with open(path, "wb") as file:
        words = ["awk", "-v", "shape=mix", "-v", f"n={LONG}", "-f", str(ROOT / "bench/shapes.awk")]
        subprocess.run(words, stdout=file, check=True)
    with Web(path) as web:
        page = chromium.page(str(web.address))
        page.until("document.getElementById('stands')?.innerText.startsWith('at 0')")
        waits = page.value("document.getElementById('part').innerText")
        began = time.monotonic()
        writes(page, "stepi 7")
        page.presses("Enter", "\r")
        says(page, "at 7")
        assert time.monotonic() - began < 5
        assert not page.value(LOADED), "the picture was there before the line was answered"
        assert re.search(r"picture.*Lines are answered meanwhile|session is waited for", waits)
        page.until(LOADED, 5 * PATIENCE)
        assert page.value("document.getElementById('part').hidden") is True
        assert f"of {LONG:,}" in page.value("document.getElementById('said').innerText")
        writes(page, "goto 50000")
        page.presses("Enter", "\r")
        current_position(page, 50_000, LONG)
        assert "(not here)" in page.value("document.getElementById('panel').innerText")
        page.value("document.getElementById('picture').focus()")
        for _ in range(8):
            page.value("document.getElementById('in').click()")
        page.until("document.getElementById('panel').innerText.toLowerCase().includes('changed by the last step')")
        assert page.wrongs() == []
