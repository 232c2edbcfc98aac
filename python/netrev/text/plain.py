"""Escapes text from outside: all text that goes to a terminal or a page passes through `plain`."""

UNSAFE = {ord("\n"): "\\n", ord("\r"): "\\r", ord("\t"): "\\t"}


def plain(text: str) -> str:
    """The text with an escape for each character that controls a terminal or is invisible: control characters,
    including those from 0x80 to 0x9f, marks that change the writing direction, unusual spaces, and bytes that aren't
    UTF-8."""
    return text if text.isprintable() else "".join(map(_shown, text))


def _shown(character: str) -> str:
    code = ord(character)
    if character.isprintable():
        return character
    if 0xDC80 <= code <= 0xDCFF:  # a byte that was read with `surrogateescape`
        return f"\\x{code - 0xDC00:02x}"
    return UNSAFE.get(code) or (f"\\x{code:02x}" if code < 0x100 else character.encode("unicode_escape").decode())
