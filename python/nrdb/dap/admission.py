"""Decides which editors are served. Over the standard streams, only the editor that started nrdb can send requests. A
port is open to every program on the machine, including web pages in a browser, so a launch over a port must carry the
token that nrdb printed."""

import hmac
import os
import secrets

from netrev.errors import NetrevError
from netrev.messages import editors as texts

from .view.messages import Request, UnanswerableError

TOKEN = "token"  # the argument of a launch that carries the token
NAMED_BY = "NRDB_TOKEN"  # the environment variable for a token that the user chooses
LEAST = 16  # the fewest characters of a token
BEFORE = ("initialize", "disconnect")  # requests that are answered without the token
OPENING = ("launch", "attach")  # requests that carry the token


class StrangerError(UnanswerableError):
    """Raised for a launch without the token; nothing more is read from that connection."""


class InvalidTokenError(NetrevError):
    """Raised, with the reason, if the token that the user chose isn't valid."""


def token_for_a_port() -> str:
    """The token that the user chose, or else a new token."""
    own = os.environ.get(NAMED_BY)
    if own is None:
        return secrets.token_urlsafe(32)
    if len(own) < LEAST or not own.isascii() or not own.isprintable():
        raise InvalidTokenError(texts.SHORT_TOKEN.format(variable=NAMED_BY, least=LEAST))
    return own


def is_let_in(request: Request, token: str) -> bool:
    """Whether a request is a launch with the token; False for a request that needs no token. Raises UnanswerableError
    for any other request, and StrangerError for a launch with another token."""
    if request.command in BEFORE:
        return False
    if request.command not in OPENING:
        raise UnanswerableError(texts.TOKEN_FIRST)
    given = request.arguments.get(TOKEN)
    if not isinstance(given, str) or not hmac.compare_digest(_bytes(given), _bytes(token)):
        raise StrangerError(texts.TOKEN_IS_WRONG)
    return True


def _bytes(text: str) -> bytes:
    return text.encode("utf-8", "surrogatepass")
