"""The steps of a recording, made from a log, and the report about it."""
