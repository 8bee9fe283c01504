"""What `at` answers of histories: late, twice, in any order, generated, and refused."""
import random

from checks import report
from hkrep.running import at, check, run
from messages import E1, E2, E3, TOO_SHORT, entry, mark


def deliveries():
    late = E2 + E1 + mark(1, 2, 2)
    check("an end may come before its row: before the end", at(1, 1, 5), late, "9 41\n")
    check("an end may come before its row: at the end", at(2, 1, 5), late, "9 42\n")
    check("a mark waits for what it counts", at(1, 1, 5), E1 + E3 + mark(1, 3, 3), "refused 26 readable 0\n", 1)
    check("and closes when that came", at(3, 1, 6), E1 + E3 + mark(1, 3, 3) + E2, "9 43\n")
    four = b"".join(entry(n, n, [(1, n, 9, bytes([n]))]) for n in range(1, 5)) + mark(1, 4, 4)
    check("a silent stream holds the mark back", at(1, 1, 1, streams="2"), four, "refused 26 readable 0\n", 1)
    check("until it tells that it has nothing", at(4, 1, 4, streams="2"), four + mark(2, 0, 4), "9 04\n")
    others = b"".join(mark(n, 0, 4) for n in range(2, 64))
    check("the last of 64 streams is the slowest", at(4, 1, 4, streams="64"), four + others + mark(64, 0, 3),
          "refused 26 readable 3\n", 1)
    check("and may be asked up to it", at(3, 1, 3, streams="64"), four + others + mark(64, 0, 3), "9 03\n")
    check("an entry of a closed time is refused", at(1, 1, 5), E1 + mark(1, 1, 5) + entry(2, 4, [(1, 9, 9, b"")]),
          "refused 23\n", 1)
    reverse = b"".join(entry(n, n, [(1, n % 7, 9, n.to_bytes(2, "big"))], [(1, n % 7, n - 7)] if n > 7 else [])
                       for n in range(1000, 0, -1))
    check("1,000 entries in reverse order", at(500, 1, 3), reverse + mark(1, 1000, 1000), "9 01f4\n")
    keys = range(1024)
    large = entry(1, 1, [(1, k, 9, b"\x01") for k in keys]) + entry(
        2, 2, [(1, k, 9, b"\x02") for k in keys], [(1, k, 1) for k in keys]) + mark(1, 2, 2)
    check("an entry of 1,024 ends and 1,024 rows, before it", at(1, 1, 1023), large, "9 01\n")
    check("an entry of 1,024 ends and 1,024 rows", at(2, 1, 1023), large, "9 02\n")
    check("an entry of more writes than may be", ["items"], entry(1, 1, [(1, k, 9, b"") for k in range(1025)]),
          "refused 8\n", 1)


def generated_histories():
    """Rows at each time, by the definition: of the versions of a key, the one that is born by then and hasn't ended."""
    source = random.Random(7)
    for streams in (1, 3):
        numbers = [0] * (streams + 1)
        rows, items, tables = {}, [], [{}]
        for time in range(1, 41):
            stream = source.randint(1, streams)
            numbers[stream] += 1
            table = dict(tables[-1])
            put, ended = [], []
            for key in sorted(source.sample(range(6), source.randint(1, 3))):
                if key in table:
                    ended.append((1, key, rows[key]))
                if key in table and source.random() < 0.4:
                    del table[key]
                else:
                    body = bytes([time, key])
                    put.append((1, key, 9, body))
                    table[key] = body
            for _, key, _, _ in put:
                rows[key] = time
            items.append(entry(numbers[stream], time, put, ended, stream=stream))
            tables.append(table)
        items += [mark(n, numbers[n], 40) for n in range(1, streams + 1)] * 2 + items[:10]
        source.shuffle(items)
        log = b"".join(items)
        problems = []
        for time in range(0, 41, 3):
            for key in range(6):
                body = tables[time].get(key)
                wanted = "none\n" if body is None else f"9 {body.hex()}\n"
                got = run(at(time, 1, key, streams=str(streams)), log).stdout.decode()
                if got != wanted:
                    problems.append(f"key {key} at {time}: {got!r}, wanted {wanted!r}")
        report(f"a generated history in {streams} streams, delivered in any order and in part twice", problems[:5])


def refusals():
    check("another log is 20", at(1, 1, 5, log="8"), E1 + mark(1, 1, 1), "refused 20\n", 1)
    check("a stream above the number is 21", at(1, 1, 5), entry(1, 1, [(1, 5, 9, b"")], stream=2), "refused 21\n", 1)
    check("another row of a version is 23", at(1, 1, 5, streams="2"), E1 + entry(1, 1, [(1, 5, 9, b"\x99")], stream=2),
          "refused 23\n", 1)
    check("the same row of a version is taken", at(1, 1, 5, streams="2"),
          E1 + entry(1, 1, [(1, 5, 9, b"\x41")], stream=2) + mark(1, 1, 1) + mark(2, 1, 1), "9 41\n")
    check("another end of a version is 23", at(1, 1, 5, streams="2"),
          E1 + E2 + entry(1, 3, [(1, 6, 9, b"")], [(1, 5, 1)], stream=2), "refused 23\n", 1)
    check("a taken number changes nothing", at(2, 1, 5), E1 + entry(1, 2, [(1, 5, 9, b"\x01")]) + mark(1, 1, 2),
          "9 41\n")
    check("an entry up to the closed time is 23", at(1, 1, 5), E1 + mark(1, 1, 5) + entry(2, 4, [(1, 6, 9, b"")]),
          "refused 23\n", 1)
    check("a repeated entry changes nothing", at(1, 1, 5), E1 + E1 + mark(1, 1, 1) + mark(1, 1, 1), "9 41\n")
    check("a mark before its entry waits", at(1, 1, 5), mark(1, 1, 1) + E1, "9 41\n")
    check("the first refusal is printed alone", at(1, 1, 5, log="8"), E1 + TOO_SHORT, "refused 20\n", 1)
    check("the first fault is printed alone", at(1, 1, 5), E1 + TOO_SHORT, "refused 10\n", 1)
    check("a cut input is 1", at(1, 1, 5), E1[:20], "refused 1\n", 1)


CHECKS = (deliveries, generated_histories, refusals)
