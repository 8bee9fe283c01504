"""Uses that a strict look at types has to refuse, one in each line that says so, and in no other (tests/checks/typed.py)."""
from vadungsil import AsyncLogFile, AsyncNode, Get, LogFile, LogWriter, Mark, Node, Row, later


def misused(node: Node, log: LogWriter, other: AsyncNode, file: LogFile, tasks: AsyncLogFile) -> int:
    print(file.commit([(1, 5, 9, b"")]).number)      # refused: it may be None
    LogFile("orders.log")      # refused: without a log
    print(tasks.commit([(1, 5, 9, b"")]).number)      # refused: it has to be awaited
    print(node.get(1, 5).body)      # refused: it may be None
    node.get("1", 5)      # refused: a table is a number
    node.items(5)      # refused: a number is no item
    print(node.items(log.marks()).new + 1)      # refused: it may be None
    log.commit(puts=[(1, 5, 9)])      # refused: a row without a body
    print(node.front().last)      # refused: no such field
    print(node.range(1)[0].body)      # refused: a key and its row
    time, row = node.latest(Get(1, 5))
    print(time + 1, row.body)      # refused: it may be None
    print(node.count(1).rows)      # refused: a count is a number
    print(other.front().readable)      # refused: it has to be awaited
    print(other.wait(3).readable)      # refused: it has to be awaited
    print(node.wait(3, "5"))      # refused: seconds are a number
    print(next(node.changes(3)).row.tag)      # refused: it may be None
    print(list(other.changes(3)))      # refused: it is asynchronous
    later.AskPage("1", 2)      # refused: a time is a number
    print(node.status().free)      # refused: no such field
    print(node.stats().memory + 1)      # refused: it may be None
    print(other.tables()[0])      # refused: it has to be awaited
    Mark(7, 1, 2)      # refused: without m
    return Row(1, b"")      # refused: no number
