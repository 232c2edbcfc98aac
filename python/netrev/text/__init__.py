"""The vocabulary and the text forms that all of netrev's Python code shares. They follow the pages, and not crates/.

    vocabulary, commands             the tables of kinds, arguments, cells, limits and reasons, and of commands
    recording, reading, writing      recordings, read from bytes and written as text
    jsontext                         a line of JSON, as strictly as docs/reference/RECORDING.md says
    plain, files                     text from outside, escaped; and files that are written atomically
    version, built, launching        netrev's version, and the path of its program
"""
