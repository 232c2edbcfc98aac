"""`nrdb --web PORT`: a page for a session that browsers share, with the timeline and a field for commands. The page is
an ordinary client of the session. Its values are netrev's replies; nothing else on it is proved."""

from .page_session import serve_page

__all__ = ["serve_page"]
