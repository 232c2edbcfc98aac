"""The causes of failed calls and of hangs: the goroutine that set a deadline, closed a socket, or could have ended a
wait. The causes are derived from the recording's steps and NAME.where. Nothing here is proved; each explanation names
the steps on which it rests."""

from netrev.findings.hangs.wait_graph import graph_at

from .failed_calls import causes_of
from .first_output import first_words, opening_words, root_sentence
from .tables import errors_table, hangs_table, requests_table

__all__ = [
    "causes_of",
    "errors_table",
    "first_words",
    "graph_at",
    "hangs_table",
    "opening_words",
    "requests_table",
    "root_sentence",
]
