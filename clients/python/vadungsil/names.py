"""Names for keys: texts whose hashes are keys of a log, and a table of the log itself in which they can be looked up.

It is an agreement of those who write and those who read; nodes know nothing of it. The key of a text is the beginning
of the BLAKE2b digest of 16 bytes of its UTF-8, without a key or a salt: its first 8 bytes, the first of them the most
significant, which are the first 16 digits that `b2sum -l 128` prints. It is the key of a text in a captured table too
(docs/POSTGRESQL.md). At that key of the table of names is a row with the tag 0 and the UTF-8 as its body. Names that
were written under the digest of 8 bytes, the key of a text before (`Names.key_before`), are read as well. Nothing of it
is proved."""
from __future__ import annotations

import hashlib
from typing import Dict, Iterable, List, Optional, Tuple, Union

from .errors import Fault, VadungsilError
from .requests import Moment, Reads
from .values import MOST_BODY, KeyRow, Put, Row, table_of
from .writer import Transaction, Writing

# a node, several as one, an embedded replica; or one moment of any
Asked = Union[Reads[Optional[Row], List[KeyRow], int], Moment[Optional[Row], List[KeyRow], int]]


def digest_of(text: str) -> bytes:
    """16 bytes of a text's hash: 8 for the key, 8 that distinguish two texts of one key."""
    return hashlib.blake2b(text.encode(), digest_size=16).digest()


def key_and_check(text: str) -> Tuple[int, int]:
    """The key of a text, of names and of captured rows, and the second number."""
    digest = digest_of(text)
    return int.from_bytes(digest[:8], "big"), int.from_bytes(digest[8:], "big")


def key_of_text(text: str) -> int:
    return key_and_check(text)[0]


class NameCollision(VadungsilError):
    """Two texts have one key. `key` is it; `texts` has the one that was there first, and the other."""

    def __init__(self, key: int, first: str, other: str) -> None:
        super().__init__(key, first, other)
        self.key = key
        self.texts: Tuple[str, str] = (first, other)

    def __str__(self) -> str:
        return f"key {self.key} is that of {self.texts[0]!r}, and of {self.texts[1]!r} too"


class NotAName(VadungsilError):
    """A row in the table of names isn't known to be the name of its key: `table`, `key`, and `why`."""

    def __init__(self, table: int, key: int, why: str) -> None:
        super().__init__(table, key, why)
        self.table, self.key, self.why = table, key, why

    def __str__(self) -> str:
        return f"table {self.table} key {self.key}: {self.why}"


class Names:
    """The names in a table of a log: `Names(3)`. One thread at a time.

    It keeps each text that `puts`, `load` and `learn` have seen, also where the transaction was then dropped: about 150
    bytes and the text. A call that raises keeps nothing. Who can choose texts can find two of one key with some 2^32
    hashes, so `puts` refuses the second; whose writer isn't this one has to see to it himself. Texts are compared by
    their UTF-8: what looks alike may be two names."""

    def __init__(self, table: int) -> None:
        self.table = table_of(table)
        self._texts: Dict[int, str] = {}

    @staticmethod
    def key(text: str) -> int:
        """The key of a text. `TypeError`: it isn't a text. 9: its UTF-8 has more than 4,096 bytes. `UnicodeEncodeError`
        (a `ValueError`): it has half of a surrogate pair, and no UTF-8."""
        if not isinstance(text, str):
            raise TypeError(f"a name must be a text, and is {type(text).__name__}")
        body = text.encode()
        if len(body) > MOST_BODY:
            raise Fault(9, place=f"a name of {len(body)} bytes")
        return key_of_text(text)

    @staticmethod
    def key_before(text: str) -> int:
        """The key that a text had before names and captured rows shared theirs: under it are rows of an older log.
        `puts` writes names under `key` alone."""
        return int.from_bytes(hashlib.blake2b(text.encode(), digest_size=8).digest(), "big")

    # ------------------------------------------------------------ writing

    def puts(self, texts: Iterable[str], log: Union[Writing, Transaction]) -> List[Put]:
        """The rows that a transaction of this log has to put beside its own, so that each of these texts is in the
        table of names: one for each that isn't there. `log.commit([*names.puts(["ada"], log), *rows])`, or in an open
        transaction `it.puts += names.puts(["ada"], it)`. They count among its 1,024 writes.

        `NameCollision`: another text of that key was seen. `NotAName`: the writer has a row there that wasn't seen, as
        behind `LogWriter.resume`: `load` the names first. `TypeError`: one text, and not several. Errors of `key`."""
        if isinstance(texts, str):
            raise TypeError("names must be several texts, as a list has them, and is one")
        writer, written = (log.writer, log.puts) if isinstance(log, Transaction) else (log, [])
        open_keys = {put.key for put in written if put.table == self.table}
        new: Dict[int, str] = {}
        puts: List[Put] = []
        for text in texts:
            key = self.key(text)
            is_known = self._agrees(key, text, new)
            if key in new:
                continue
            new[key] = text
            if key not in open_keys and writer.born(self.table, key) is None:
                puts.append(Put(self.table, key, Row(0, text.encode())))
            elif not is_known:
                raise NotAName(self.table, key, f"a row is there that was not seen; load it before {text!r} is put")
        self._texts.update(new)
        return puts

    def load(self, of: Asked, at: Optional[int] = None) -> int:
        """Reads the table of names once, at a time or at the resolved time, and returns how many there are. `of` is a
        `Node`, `Nodes`, or one moment of them. Behind `LogWriter.resume` feed the node `log.marks()` first, or its last
        names can't be read yet. More than 2^28 bytes are refused 2: `learn(node.rows(names.table))` reads any number.

        Errors of `learn`, of the node, and `ValueError`: the moment is of another time."""
        if isinstance(of, Moment):
            _same_time(of.time, at)
            return self.learn(of.range(self.table))
        return self.learn(of.range(self.table, at=at))

    def learn(self, rows: Iterable[KeyRow]) -> int:
        """Sees the rows of the table of names, however they were read, and returns how many there are. `NotAName`: one
        is no text of its key. `NameCollision`: another text of that key was seen."""
        new: Dict[int, str] = {}
        count = 0
        for count, (key, row) in enumerate(rows, 1):
            text = self._text(key, row)
            self._agrees(key, text, new)
            new[key] = text
        self._texts.update(new)
        return count

    # ------------------------------------------------------------ reading

    def text(self, of: Asked, key: int, at: Optional[int] = None) -> Optional[str]:
        """The text of a key, at a time or at the resolved time; None where no name is there then. It asks a `Node`,
        `Nodes`, or one moment of them, and nothing that was seen here. `NotAName`: the row there is no text of that
        key. Else errors of the node, and `ValueError`: the moment is of another time."""
        if isinstance(of, Moment):
            _same_time(of.time, at)
            return self.text_of(key, of.get(self.table, key))
        return self.text_of(key, of.get(self.table, key, at))

    def text_of(self, key: int, row: Optional[Row]) -> Optional[str]:
        """The text of a key, of the row that was read there, as by an `AsyncNode` or a pipeline. `NotAName` as
        above."""
        return None if row is None else self._text(key, row)

    # ------------------------------------------------------------ parts

    def _text(self, key: int, row: Row) -> str:
        try:
            text = row.body.decode()
        except UnicodeDecodeError:
            raise NotAName(self.table, key, "the body of the row is no UTF-8") from None
        if key not in (self.key(text), self.key_before(text)):
            raise NotAName(self.table, key, f"the row is {text!r}, whose key is {self.key(text)}")
        return text

    def _agrees(self, key: int, text: str, new: Dict[int, str]) -> bool:
        """Whether this text was seen; `NameCollision` where another one of the key was."""
        known = new.get(key, self._texts.get(key))
        if known is not None and known != text:
            raise NameCollision(key, known, text)
        return known is not None


def _same_time(time: int, at: Optional[int]) -> None:
    if at is not None and at != time:
        raise ValueError(f"a moment of time {time} can't be asked at {at}")
