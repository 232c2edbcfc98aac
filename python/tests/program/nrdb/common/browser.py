"""A page in a real browser: chromium opens it, and a script uses it as a person would and records what it sees."""

import json
import re
import shutil
import subprocess
import tempfile
from pathlib import Path
from typing import Any

import pytest

CHROMIUM = next(
    (path for name in ("chromium", "chromium-browser", "google-chrome") if (path := shutil.which(name))), ""
)
NO_CHROMIUM = "chromium isn't on this machine (Debian: apt-get install chromium)"
needs_chromium = pytest.mark.skipif(not CHROMIUM, reason=NO_CHROMIUM)
PATIENCE = 60  # seconds
LIGHT, DARK = 1, 0  # the colour schemes that a browser may ask for

# Functions for a script in the page. They turn the wheel, press keys, move the pointer, and read texts and pixels.
# `wrong` collects errors.
HANDS = """
const wrong = [];
addEventListener("error", (event) => wrong.push(String(event.message)));
addEventListener("unhandledrejection", (event) => wrong.push(String(event.reason)));
const picture = document.getElementById("picture"), box = () => picture.getBoundingClientRect();
const at = (x, y) => ({ clientX: box().left + x, clientY: box().top + y, bubbles: true, cancelable: true, pointerId: 1 });
const wheel = (x, y, deltaY, more) => picture.dispatchEvent(new WheelEvent("wheel", { ...at(x, y), deltaY, ...more }));
const key = (key, on) => (on || document.body).dispatchEvent(new KeyboardEvent("keydown", { key, bubbles: true, cancelable: true }));
const point = (name, x, y) => picture.dispatchEvent(new PointerEvent(name, at(x, y)));
const click = (x, y) => { point("pointerdown", x, y); point("pointerup", x, y); };
const text = (name) => document.getElementById(name).innerText;
const range = () => /positions ([\\d]+) to ([\\d]+)/.exec(text("said")).slice(1).map(Number);
const position = () => Number(/position (\\d+)/.exec(text("panel"))[1]);
const search = (words) => { const find = document.getElementById("find"); find.value = words; find.dispatchEvent(new Event("input")); };
const pixel = (x, y) => [...picture.getContext("2d").getImageData(x * devicePixelRatio, y * devicePixelRatio, 1, 1).data.slice(0, 3)];
picture.setPointerCapture = () => {};
"""


def used(
    page: str, script: str, size: tuple[int, int] = (1280, 800), scheme: int = LIGHT, place: str = ""
) -> dict[str, Any]:
    """The values that a script records in `told` while it uses the page. No error may occur in the page meanwhile."""
    probe = (
        f"<script>{HANDS}\nconst told = {{}};\n(async () => {{ {script} }})().catch((error) => wrong.push(String(error)))"
        '.finally(() => { const out = document.createElement("pre"); out.id = "told"; out.textContent = JSON.stringify({ told, wrong });'
        " document.body.append(out); });</script>"
    )
    with tempfile.TemporaryDirectory() as folder:
        file = Path(folder) / "page.html"
        file.write_text(page.replace("</body>", probe + "</body>"), encoding="utf-8")
        words = [CHROMIUM, "--headless=new", "--no-sandbox", "--disable-gpu", f"--user-data-dir={folder}/profile"]
        words += [f"--window-size={size[0]},{size[1]}", f"--blink-settings=preferredColorScheme={scheme}"]
        words += ["--enable-logging=stderr", "--virtual-time-budget=5000", "--dump-dom", f"file://{file}{place}"]
        ended = subprocess.run(words, capture_output=True, text=True, timeout=PATIENCE, check=False)
    assert "CONSOLE" not in ended.stderr, ended.stderr
    found = re.search(r'<pre id="told">(.*?)</pre>', ended.stdout, re.DOTALL)
    assert found, ended.stdout[-2_000:] + ended.stderr[-2_000:]
    text = json.loads(unescaped(found[1]))
    assert text["wrong"] == [], text
    result: dict[str, Any] = text["told"]
    return result


def unescaped(text: str) -> str:
    """The text of an element, with HTML's escapes undone."""
    for written, letter in (("&lt;", "<"), ("&gt;", ">"), ("&nbsp;", "\xa0"), ("&amp;", "&")):
        text = text.replace(written, letter)
    return text
