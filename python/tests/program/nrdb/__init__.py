"""Tests nrdb with the built program: its views compared with plain `print`s, its hints, its terminal, and the sessions
of docs/."""
