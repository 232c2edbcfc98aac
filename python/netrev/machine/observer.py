"""Receives the events of the model: a caller overrides the methods for the events that it needs."""

from __future__ import annotations

from typing import TYPE_CHECKING

from netrev.text.contents import Answer

if TYPE_CHECKING:
    from .debugger_model import Reply, Request


class Observer:
    """Receives all steps and lines, and ignores them."""

    def applied(self, kind: str, answer: Answer) -> None:
        """Called if a step of this kind applied and had this answer."""

    def refused(self, kind: str, reason: int) -> None:
        """Called if a step of this kind was refused, with the reason."""

    def differed(self, kind: str, recorded: Answer, answer: Answer) -> None:
        """Called if the recorded answer of a step of this kind isn't the machine's."""

    def printed(self, fault: str) -> None:
        """Called if a recording has this fault."""

    def replied(self, request: Request, reply: Reply) -> None:
        """Called after a line got this answer; `request` is the line's meaning."""
