"""Makes the pictures of docs/guide, which show the timeline's page in chromium:

    python3 python tests.program.nrdb.common.pictures [FOLDER]

With `--real FOLDER` it instead makes pictures of all recordings of examples/real: in light colours, in dark colours,
and at a phone's size.
"""

import sys
import tempfile
from pathlib import Path

from tests.program.nrdb.pages.test_calls_page import BUGS
from tests.program.nrdb.pages.test_timeline_page import page_of

from .devtools import Chromium
from .support import EXAMPLES, ROOT

# For each picture: the recording, the keys that are typed first, and the size of the window.
PICTURES: dict[str, tuple[str, tuple[str, ...], tuple[int, int]]] = {
    "hijacked": ("real/hijacked", (), (1280, 580)),
    "lost-wakeup": ("lost-wakeup", ("-ex", "watch rg 0", "-ex", "goto 18"), (1280, 400)),
}
LOOKS = {"light": (1400, 900, "light", False), "dark": (1400, 900, "dark", False), "phone": (390, 844, "light", True)}


def taken(chromium: Chromium, page: str, file: Path, look: tuple[int, int, str, bool]) -> None:
    """Takes a picture of a page."""
    wide, high, scheme, is_phone = look
    with tempfile.TemporaryDirectory() as folder:
        source = Path(folder) / "page.html"
        source.write_text(page, encoding="utf-8")
        made = chromium.page("about:blank")
        scale = 2 if is_phone else 1
        made.does(
            "Emulation.setDeviceMetricsOverride", width=wide, height=high, deviceScaleFactor=scale, mobile=is_phone
        )
        made.does("Emulation.setEmulatedMedia", features=[{"name": "prefers-color-scheme", "value": scheme}])
        made.does("Page.navigate", url=f"file://{source}")
        made.until("document.getElementById('panel')?.innerText.includes('position')")
        made.picture(file)
        assert made.wrongs() == [], made.wrongs()


def main(words: list[str]) -> None:
    is_real = words[:1] == ["--real"]
    folder = Path(words[-1] if words else ROOT / "docs/guide")
    with Chromium() as chromium:
        if is_real:
            for name in BUGS:
                for look, values in LOOKS.items():
                    taken(chromium, page_of(EXAMPLES / f"real/{name}.jsonl"), folder / f"{name}-{look}.png", values)
            return
        for name, (path, typed, (wide, high)) in PICTURES.items():
            taken(
                chromium,
                page_of(EXAMPLES / f"{path}.jsonl", *typed),
                folder / f"{name}.png",
                (wide, high, "light", False),
            )


if __name__ == "__main__":
    main(sys.argv[1:])
