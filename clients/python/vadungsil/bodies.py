"""Bodies of rows as people read them: as text where they are plain text, else in hexadecimal."""
from __future__ import annotations

import unicodedata
from typing import Iterable, List, Tuple

from .values import KeyRow

# How a body is shown: as text where it is plain text, always as text, always in hexadecimal.
WAYS = ("plain", "text", "hex")

# Control and format characters, those of direction among them, ends of lines and paragraphs, and what has no shape.
HIDDEN = frozenset({"Cc", "Cf", "Cn", "Co", "Cs", "Zl", "Zp"})
SHORT = {"\\": "\\\\", "\n": "\\n"}


def is_plain(text: str) -> bool:
    """Whether each letter stands for itself on a line."""
    return all(unicodedata.category(letter) not in HIDDEN for letter in text)


def shown(body: bytes, way: str = "plain") -> str:
    """A body in one line, as the tables of `hkrep shell` have it; a dash where it is empty. Its text where it is UTF-8
    without hidden characters, else `\\x` and two hexadecimal digits a byte. By "hex" always these digits; by "text"
    always text, with escapes for hidden characters and the backslash, and where it isn't UTF-8 for each byte that isn't
    ASCII."""
    if way == "hex" or not body:
        return body.hex() or "-"
    try:
        text = body.decode()
    except UnicodeDecodeError:
        if way == "plain":
            return f"\\x{body.hex()}"
        return "".join(_escaped(chr(byte)) if byte < 128 else f"\\x{byte:02x}" for byte in body)
    if way == "text":
        return "".join(map(_escaped, text))
    return text if is_plain(text) else f"\\x{body.hex()}"


def _escaped(letter: str) -> str:
    return SHORT.get(letter) or (letter if is_plain(letter) else f"\\u{{{ord(letter):x}}}")


def table_of(rows: Iterable[KeyRow], way: str = "plain") -> str:
    """Rows as a table for people, and below it how many they are."""
    texts: List[Tuple[str, str, str]] = [("key", "tag", "body")]
    texts += [(str(key), str(row.tag), shown(row.body, way)) for key, row in rows]
    keys, tags = (max(len(it[column]) for it in texts) for column in (0, 1))
    lines = [f"{key:>{keys}}  {tag:>{tags}}  {body}" for key, tag, body in texts]
    return "\n".join([*lines, f"rows {len(texts) - 1}"])
