"""The page of `nrdb --web` in chromium: two browsers and a terminal in one session, messages while netrev is gone, an
attack from another page, and HTML in a recording's texts, which is shown as text. Skipped without chromium (Debian:
apt-get install chromium)."""

import shutil
import signal
from pathlib import Path

import pytest

from tests.program.nrdb.common.devtools import Chromium, Page
from tests.program.nrdb.common.support import EXAMPLES
from tests.program.nrdb.common.web_support import Web
from tests.program.nrdb.sessions.test_join import ServedSession, replies
from tests.program.support.sharing import Server

pytestmark = pytest.mark.together

LOST = EXAMPLES / "lost-wakeup.jsonl"
HOSTILE = "<img src=x onerror=\"document.title='obeyed'\">"
LOG, GONE = "document.getElementById('log').innerText", "document.getElementById('gone').innerText"


def says(page: Page, text: str) -> None:
    """Waits until the page's log has this text."""
    page.until(f"{LOG}.includes({text!r})")


def current_position(page: Page, position: int, steps: int = 22) -> None:
    """Waits until the page shows this position, both in words and in the timeline."""
    page.until(f"document.getElementById('stands').innerText.startsWith('at {position} of {steps}')")
    page.until(f"document.getElementById('panel').innerText.startsWith('goto {position}')"
               f"|| document.getElementById('panel').innerText.includes('position {position}\\n')")  # fmt: skip


def expect_patience(server: Server, page: Page) -> None:
    """Stops netrev for a while, and checks that the page reports that a line has no reply yet."""
    busy = "document.getElementById('busy').innerText"
    server.process.send_signal(signal.SIGSTOP)
    page.value("document.getElementById('line').focus()")
    page.types("print clock")
    page.until(f"{busy}.includes('no reply yet to ') && {busy}.includes('print clock')")
    server.process.send_signal(signal.SIGCONT)
    says(page, "clock = 0")
    page.until(f"{busy} === ''")


def expect_gone_and_back(server: Server, item: Page, other: Page) -> None:
    """Kills netrev, and checks that the pages report this and that a line isn't answered. When netrev is back, the
    pages continue."""
    server.process.kill()
    server.process.wait()
    for page in (item, other):
        page.until(f"{GONE}.startsWith('netrev has ended: lines aren')")
    item.value("document.getElementById('line').focus()")
    item.types("stepi 3")
    says(item, "not answered: stepi 3: netrev has ended")
    with Server(LOST, fronts=1, connections=0, port=server.port) as again:
        again.call(0).close()
        for page in (item, other):
            page.until(f"{GONE} === ''")
            current_position(page, 0)
        item.presses("ArrowUp")
        item.presses("Enter", "\r")
        current_position(other, 3)


def test_two_browsers_and_a_terminal_in_one_session(chromium: Chromium) -> None:
    with Server(LOST, fronts=2, connections=0) as server:
        server.call(0).close()
        server.call(1).close()
        with Web("--join", f"127.0.0.1:{server.port}", LOST) as web, ServedSession(server.port + 1, LOST) as person:
            item, other = chromium.opened(web), chromium.opened(web)
            item.until("document.getElementById('here').innerText === 'with browser 2'")
            item.types("continue")
            for page in (item, other):
                says(page, "browser 1> continue")
                says(page, "browser 1 moved from 0 to 22: continue")
                current_position(page, 22)
            other.types("watch rg 0")
            other.types("reverse-continue")
            for page in (item, other):
                says(page, "browser 2 moved from 22 to 20: reverse-continue")
                current_position(page, 20)
                says(page, "rg 0: nil -> wait")
            assert replies(person.ask("reverse-continue")) == ["at 18 by 1"]
            for page in (item, other):
                says(page, "another front moved from 20 to 18")
                current_position(page, 18)
            item.clicks("#suspects button")
            item.until("location.hash === '#18'")
            item.value("document.getElementById('picture').focus()")
            item.presses("ArrowLeft")
            item.presses("ArrowLeft")
            item.until("location.hash === '#16'")
            item.clicks("#panel .go")
            current_position(other, 16)
            assert replies(person.ask("info position")) == ["at 16 of 22 forward"]
            expect_patience(server, item)
            expect_gone_and_back(server, item, other)
            assert other.wrongs() == []


def test_nrdb_itself_is_gone(chromium: Chromium) -> None:
    with Web(LOST) as web:
        page = chromium.opened(web)
        assert web.ends()[0] == 0
    page.until(f"{GONE}.startsWith('nrdb doesn')")
    page.types("stepi")
    says(page, "not answered: stepi: nrdb doesn")


def test_another_page_tries_its_luck(folder: Path, chromium: Chromium) -> None:
    with Web(LOST) as web:
        file = folder / "evil.html"
        file.write_text("<title>evil</title>", encoding="utf-8")
        page, evil = chromium.opened(web), chromium.page(f"file://{file}")
        evil.until("document.title === 'evil'")
        at, token = f"http://127.0.0.1:{web.address.port}", web.address.token
        for tried in (
            f"fetch('{at}/line', {{method: 'POST', body: 'stepi 3'}})",
            f"fetch('{at}/line', {{method: 'POST', mode: 'no-cors', body: 'stepi 3'}})",
            f"fetch('{at}/line', {{method: 'POST', body: 'stepi 3', headers: {{'Netrev-Token': '{token}'}}}})",
            f"fetch('{at}/timeline', {{headers: {{'Netrev-Token': '{token}'}}}})",
            f"fetch('{at}/?token={token}')",
        ):
            assert evil.value(f"{tried}.then((answer) => answer.status, () => 'refused')") == "refused", tried
        stream = f"new Promise((done) => {{ const s = new EventSource('{at}/events?token={token}');"
        stream += " s.onmessage = () => done('told'); s.onerror = () => done('refused'); })"
        assert evil.value(stream) == "refused"
        framed = f"new Promise((done) => {{ const f = document.createElement('iframe'); f.src = '{at}/?token={token}';"
        framed += " f.onload = () => { let seen = 'nothing'; try { seen = f.contentDocument ? 'seen' : seen; } catch {} done(seen); };"
        assert evil.value(framed + " document.body.append(f); })") == "nothing"
        page.types("info position")
        says(page, "at 0 of 22 forward")
        assert page.value("document.getElementById('here').innerText") == "no other browser is here"


def test_texts_of_others_stay_texts(folder: Path, chromium: Chromium) -> None:
    path = folder / "<img src=x onerror=document.title='obeyed'>.jsonl"
    shutil.copy(LOST, path)
    with Web(path) as web:
        page = chromium.opened(web)
        page.types(f"print {HOSTILE}")
        says(page, f"browser 1> print {HOSTILE}")
        page.types("info suspects")
        says(page, "lost wake-up")
        assert page.value("document.title").startswith("<img src=x onerror")
        assert "<img src=x" in page.value("document.getElementById('name').innerText")
        assert page.value("document.querySelectorAll('img, b b, #log b').length") == 0
        made = "(() => { try { document.body.innerHTML = '<b>'; return 'made'; } catch { return 'refused'; } })()"
        assert page.value(made) == "refused"


def test_a_narrow_screen_has_room_for_all(chromium: Chromium) -> None:
    with Web(LOST) as web:
        page = chromium.opened(web)
        page.does("Emulation.setDeviceMetricsOverride", width=500, height=900, deviceScaleFactor=1, mobile=False)
        page.until("innerWidth === 500")
        box = "(name) => { const one = document.querySelector(name).getBoundingClientRect(); return [one.width, one.height, one.bottom]; }"
        sizes = {name: page.value(f"({box})('{name}')") for name in ("main", "#talk", "aside", "#line")}
        for name in ("main", "#talk", "aside"):
            assert sizes[name][0] == 500, name
            assert sizes[name][1] > 120, name
        assert sizes["aside"][2] <= 900
        assert page.value("document.documentElement.scrollWidth") == 500
        assert sizes["#line"][0] > 200
