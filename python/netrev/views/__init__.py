"""The tables and texts of the commands that show a position or a part of a run."""
