"""Puts sentences into the past tense, for a state at an earlier step."""

import re

PAST = {
    "sleeps": "slept", "waits": "waited", "it is now in": "it was then in", "is itself under way": "was itself under way", "It needs": "It needed",
    "has no room": "had no room", "isn't being": "wasn't being", "is being": "was being", "it is in no call": "it was in no call", ", is in": ", was in",
    "now it reads on": "then it read on", "has written": "had written", "has closed": "had closed", "haven't all come": "hadn't all come",
}  # fmt: skip


def in_the_past(words: str) -> str:
    """A sentence, put into the past tense."""
    for now, then in PAST.items():
        words = re.sub(rf"\b{now}\b", then, words)
    return words
