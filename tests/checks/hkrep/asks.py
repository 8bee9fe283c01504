"""`ask`, `front` and `status` of frames."""
from hkrep.running import asked, check, check_bad_line
from messages import E1, E2, E3, entry, mark


def asks_and_fronts():
    fed = E1 + E2 + E3 + mark(1, 3, 3)
    check("ask for a row", asked("ask", 3, "get", 1, 5), fed, "9 42\n")
    check("ask for no row", asked("ask", 0, "get", 1, 5), fed, "none\n")
    check("ask for a range", asked("ask", 3, "range", 1, 0, 9), fed, "5 9 42\n6 9 43\nrows 2\n")
    check("ask by tag", asked("ask", 1, "tag", 1, 9), fed, "5 9 41\nrows 1\n")
    check("ask for a count", asked("ask", 3, "count", 1), fed, "count 2\n")
    check("ask above the mark", asked("ask", 4, "count", 1), fed, "refused 26 readable 3\n", 1)
    check("ask behind a fault", asked("ask", 3, "count", 1), fed + b"\0", "refused 1\n", 1)
    check("front", asked("front"), fed, "front horizon 0 readable 3\n")
    check("front of nothing", asked("front", streams="64"), b"", "front horizon 0 readable 0\n")
    check("front of a foreign log", asked("front", log="8"), E1, "refused 20\n", 1)
    late = E1 + E3 + mark(1, 3, 3) + entry(2, 9, [(1, 7, 9, b"")], stream=2) + mark(3, 0, 2 ** 62) + mark(4, 0, 5)
    check("status", asked("status", streams="4"), late,
          "stream 1 prefix 1 extra 1 closed 0 waiting 1 holds\nstream 2 prefix 0 extra 1 closed 0 waiting 0 holds\n"
          "stream 3 prefix 0 extra 0 closed 4611686018427387904 waiting 0 retired\nstream 4 prefix 0 extra 0 closed 5 waiting 0 open\n"
          "front horizon 0 readable 0\n")
    check("status of a refused item", asked("status"), late, "refused 21\n", 1)
    for words in (("1",), ("1", "get", "1"), ("1", "all", "1"), ("1", "get", "1", "+5"), ("+1", "get", "1", "5"), ("1", "count", "65536"),
                  (str(2 ** 62 + 1), "count", "1"), ("1", "tag", "1", str(2 ** 32)), ("1", "count", "1", "1")):
        check_bad_line(f"ask {' '.join(words)}", asked("ask", *words), ["error"])


CHECKS = (asks_and_fronts,)
