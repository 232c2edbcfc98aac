"""The page: one file with its own style and script. Its policy makes a browser reject any other style or script."""

import base64
import hashlib
from dataclasses import dataclass
from functools import lru_cache

from netrev.timeline.page import SCRIPTS, read_part

FORBIDDEN = "default-src 'none'; base-uri 'none'; form-action 'none'; frame-ancestors 'none'"
TYPES = "require-trusted-types-for 'script'; trusted-types 'none'"  # so that no text can become an element or a script


@dataclass(frozen=True)
class Document:
    """The page's bytes, and the policy that is sent with every response."""

    data: bytes
    policy: str


@lru_cache(maxsize=None)
def document() -> Document:
    """The page."""
    style = read_part("timeline.css") + read_part("live.css")
    timeline = "\n".join(read_part(f"{name}.js") for name in SCRIPTS)
    script = read_part("live.js").replace("/*TIMELINE*/", timeline)
    text = read_part("live.html").replace("/*STYLE*/", style).replace("/*SCRIPT*/", script)
    own = f"script-src {hashed(script)}; style-src {hashed(style)}; connect-src 'self'"
    return Document(text.encode("utf-8"), f"{FORBIDDEN}; {own}; {TYPES}")


def hashed(text: str) -> str:
    """The hash by which the policy names an element with this text."""
    return f"'sha256-{base64.b64encode(hashlib.sha256(text.encode('utf-8')).digest()).decode('ascii')}'"
