"""`nrdb --dap`: the Debug Adapter Protocol, for editors. A recording's text is the source, and a position is the line
of the next step. Goroutines are threads, and cells are variables. Values are netrev's; nothing else is proved."""

from .server import serve_port, serve_streams

__all__ = ["serve_port", "serve_streams"]
