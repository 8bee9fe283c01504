"""What is raised. Each error says its number where it has one, the words of `hkrep explain`, and the place."""
from __future__ import annotations

from typing import Any, Dict, List, Tuple, Type

from .reasons import REASONS


class VadungsilError(Exception):
    """The base of all errors of this package."""


class Refused(VadungsilError):
    """A refusal, of a node or of a value here. A node that refuses changes nothing, but for 23 and 42
    (docs/PROTOCOL.md).

    `number` is that of docs/FORMATS.md, `values` its fields in order (`error.readable` of 26 and so on is one of them
    by name), `place` where it was met; `before`, where a feeder met it, the values before it."""

    before: List[Any]

    def __init__(self, number: int, *values: int, place: str = "") -> None:
        super().__init__(number, *values)
        self.number, self.values, self.place = number, tuple(values), place

    @property
    def name(self) -> str:
        return REASONS[self.number].name

    @property
    def meaning(self) -> str:
        return REASONS[self.number].meaning

    @property
    def advice(self) -> str:
        return REASONS[self.number].advice

    @property
    def fields(self) -> Dict[str, int]:
        """The fields by name, as docs/FORMATS.md has them."""
        return dict(zip(REASONS[self.number].fields, self.values))

    @property
    def line(self) -> str:
        """The line that `hkrep` prints: `refused 26 readable 0`."""
        return " ".join(["refused", str(self.number), *(f"{name} {value}" for name, value in self.fields.items())])

    def at(self, place: str) -> "Refused":
        """The same with a place before its own, as `frame 3`."""
        self.place = f"{place}, {self.place}" if self.place else place
        return self

    def __getattr__(self, name: str) -> Any:
        if not name.startswith("_") and "values" in self.__dict__:
            fields = self.fields
            if name in fields:
                return fields[name]
        raise AttributeError(name)

    def __str__(self) -> str:
        place = f"{self.place}: " if self.place else ""
        fields = "".join(f" {name} {value}" for name, value in self.fields.items())
        return f"{place}refused {self.number}{fields}: {self.meaning}; {self.advice}"

    def __eq__(self, other: object) -> bool:
        return isinstance(other, Refused) and (self.number, self.values) == (other.number, other.values)

    def __hash__(self) -> int:
        return hash((self.number, self.values))

    def __reduce__(self) -> Tuple[Any, ...]:
        return _again, (type(self), self.number, self.values, self.place)


def _again(kind: "Type[Refused]", number: int, values: Tuple[int, ...], place: str) -> Refused:
    return kind(number, *values, place=place)


class Fault(Refused):
    """Malformed input, 1 to 10: bytes that are no frame, or a value that has none."""


class NotANode(Fault):
    """What answers at an address is no node: `what` says what it seems to be. `number` is 2 or 10, that of its first
    four bytes, taken for the length of a reply."""

    def __init__(self, number: int, what: str, hint: str, place: str = "") -> None:
        super().__init__(number, place=place)
        self.what, self.hint = what, hint

    @property
    def meaning(self) -> str:
        return f"no node answers there, but {self.what}"

    @property
    def advice(self) -> str:
        return self.hint

    def __reduce__(self) -> Tuple[Any, ...]:
        return type(self), (self.number, self.what, self.hint, self.place)


class TooOld(Refused):
    """25: what was asked for is below the oldest readable time, `error.horizon`, since the node was pruned. Of
    `changes`: there may be some that it doesn't have any more. Then read the rows at its resolved time, and go on with
    the changes since that."""


class NotYet(Refused):
    """26: a time can't be read yet; the node can be read up to `error.readable`. Where that is 0, nothing can be read:
    no marks came, as of a new node, or where a stream has none. `wait` waits for a time."""

    @property
    def meaning(self) -> str:
        return super().meaning if self.readable else "nothing is readable yet: no marks came"


class LinkBroken(VadungsilError):
    """A connection could not be opened, or ended where a reply was awaited; whether the request was made isn't
    known."""


class TimeLimit(LinkBroken):
    """No reply within the time limit: the connection was closed, and whether the request was made isn't known. Of
    `wait` it may also be that the node replied, and the time can't be read there yet."""


class NotResumable(VadungsilError):
    """A full snapshot from which a log can't be continued, and why."""


class Broken(VadungsilError):
    """What is there, or is to be there, is no log, and where and why; `status` is that of the programs which say so."""

    def __init__(self, status: int, text: str) -> None:
        super().__init__(text)
        self.status = status


class LogInUse(Broken):
    """Another program writes to the file of a log."""


class NotWritten(VadungsilError):
    """A commit that isn't in the file of a log, and of which nothing stays there: the disk is full, or a write failed.
    `__cause__` is the system's error. The log goes on: a later commit may go well."""


class NotKept(VadungsilError):
    """A write to the file of a log of which isn't known whether it stays, as the disk said of its checksum that it
    failed. `__cause__` is the system's error. The log takes no more: who opens it anew reads what stays."""


class NothingToResume(NotResumable):
    """A full snapshot without an entry, as of a node that nobody has fed yet: a writer behind that would begin a second
    history under the same log. `LogWriter.resume(.., empty=True)` where the log does begin there."""


def refusal(number: int, *values: int, place: str = "") -> Refused:
    """A `Fault` for 1 to 10, a `TooOld` for 25, a `NotYet` for 26, else a `Refused`."""
    kind = Fault if number <= 10 else {25: TooOld, 26: NotYet}.get(number, Refused)
    return kind(number, *values, place=place)
