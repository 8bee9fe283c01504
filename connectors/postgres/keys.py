"""Which rows stand in a log, in little memory: for each key the time of its version, and no body. Standard library
only."""
from __future__ import annotations

import struct
from typing import Dict, Iterator, MutableMapping, Optional, Tuple

Place = Tuple[int, int]

# Keys stand multiplied by an odd number, which can be taken back: so no two records look alike, also where keys follow
# one another.
_ODD, _ALL = 0x9E3779B97F4A7C15, 2**64 - 1
_BACK = pow(_ODD, -1, 2**64)

# records a bucket has on average before the next is split
_RECORDS = 24

_KEY, _PAIR = struct.Struct(">Q"), struct.Struct(">QQ")


def _spread(stored: int) -> int:
    """What says which bucket a key goes into: a number of 32 bits on which all bits of the key weigh."""
    return ((stored ^ stored >> 32) * _ODD & _ALL) >> 32


class Keys:
    """The keys of one table, each with a time, and where `is_hashed` with a second number that distinguishes two texts
    of one hash. 16 or 24 bytes a key and some of the buckets', which are split one after the other as keys come (linear
    hashing), so that no change takes long."""

    def __init__(self, is_hashed: bool = False) -> None:
        self.size = 24 if is_hashed else 16
        self.buckets = [bytearray()]
        self.round, self.count = 1, 0

    def __len__(self) -> int:
        return self.count

    def __iter__(self) -> Iterator[int]:
        for bucket in self.buckets:
            for at in range(0, len(bucket), self.size):
                yield _KEY.unpack_from(bucket, at)[0] * _BACK & _ALL

    # ------------------------------------------------------------ one key

    def get(self, key: int) -> Optional[int]:
        """The time of a key, None where it isn't there."""
        bucket, at, _ = self._found(key)
        return None if at < 0 else _KEY.unpack_from(bucket, at + 8)[0]

    def put(self, key: int, time: int) -> None:
        bucket, at, stored = self._found(key)
        if at >= 0:
            _KEY.pack_into(bucket, at + 8, time)
            return
        bucket += _PAIR.pack(stored, time)
        if self.size == 24:
            bucket += bytes(8)
        self.count += 1
        if self.count > len(self.buckets) * _RECORDS:
            self._split()

    def discard(self, key: int) -> None:
        """Takes out a key, where it is there."""
        bucket, at, _ = self._found(key)
        if at < 0:
            return
        bucket[at : at + self.size] = bucket[-self.size :]
        del bucket[-self.size :]
        self.count -= 1

    # ------------------------------------------------------------ texts of one hash

    def check(self, key: int) -> int:
        """The second number of a key, 0 where none was set or the key isn't there."""
        bucket, at, _ = self._found(key)
        check: int = 0 if at < 0 else _KEY.unpack_from(bucket, at + 16)[0]
        return check

    def set_check(self, key: int, check: int) -> None:
        """Sets the second number of a key that is there."""
        bucket, at, _ = self._found(key)
        _KEY.pack_into(bucket, at + 16, check)

    # ------------------------------------------------------------ buckets

    def _found(self, key: int) -> Tuple[bytearray, int, int]:
        """The bucket of a key, where its record begins or -1, and the key as it stands there. What looks like it inside
        a record is passed over."""
        stored = key * _ODD & _ALL
        at = ((stored ^ stored >> 32) * _ODD & _ALL) >> 32 & 2 * self.round - 1  # by _spread, written out
        bucket = self.buckets[at if at < len(self.buckets) else at & self.round - 1]
        text = _KEY.pack(stored)
        at = bucket.find(text)
        while at > 0 and at % self.size:
            at = bucket.find(text, at + 1)
        return bucket, at, stored

    def _split(self) -> None:
        """Adds a bucket, and moves to it what belongs there of the one it is split from: by one bit more of the key."""
        old, size, records = self.buckets[len(self.buckets) - self.round], self.size, []
        for at in range(0, len(old), size):
            records.append(bytes(old[at : at + size]))
        old.clear()
        new = bytearray()
        for record in records:
            (new if _spread(_KEY.unpack_from(record)[0]) & self.round else old).extend(record)
        self.buckets.append(new)
        if len(self.buckets) == 2 * self.round:
            self.round *= 2


class Births(MutableMapping[Place, int]):
    """The births of all rows that stand, by table and key: what a `LogWriter` asks of its map."""

    def __init__(self, hashed: Tuple[int, ...] = ()) -> None:
        self.tables: Dict[int, Keys] = {number: Keys(True) for number in hashed}

    def table(self, number: int) -> Keys:
        found = self.tables.get(number)
        if found is None:
            found = self.tables[number] = Keys()
        return found

    def __len__(self) -> int:
        return sum(len(it) for it in self.tables.values())

    def __iter__(self) -> Iterator[Place]:
        for number, keys in self.tables.items():
            for key in keys:
                yield number, key

    def __contains__(self, place: object) -> bool:
        return isinstance(place, tuple) and self.table(place[0]).get(place[1]) is not None

    def __getitem__(self, place: Place) -> int:
        time = self.table(place[0]).get(place[1])
        if time is None:
            raise KeyError(place)
        return time

    def __setitem__(self, place: Place, time: int) -> None:
        self.table(place[0]).put(place[1], time)

    def __delitem__(self, place: Place) -> None:
        self.table(place[0]).discard(place[1])
