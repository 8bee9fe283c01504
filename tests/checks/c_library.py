#!/usr/bin/env python3
"""The library for C, end to end: tests/checks/c_library.py. Looks at what is in lib/, which `make lib` makes (tests/tools/library), and runs programs in C,
C++, Rust, Go and Python against it: each function, the first example, the sessions of tests/vectors, and bad input. What a language needs and
isn't installed is said as skipped. Ends with 'N passed, M failed'."""
import json
import os
import pathlib
import re
import shutil
import subprocess
import sys
import tempfile

sys.dont_write_bytecode = True
ROOT = pathlib.Path(__file__).resolve().parents[2]
sys.path[:0] = [str(ROOT / "tests" / "lib"), str(ROOT / "clients" / "python"), str(ROOT / "deploy")]
from checks import differ, ended, report, skip  # noqa: E402
from shown import of  # noqa: E402
from tree import VERSION, is_unproved_library  # noqa: E402

LIB, HEADER, FIRST = ROOT / "lib", ROOT / "include" / "hekaton.h", ROOT / "examples" / "first.bin"
LINKED = ["-I", str(ROOT / "include")]
WORDS = "tag 9 body 41"
# what the library says of itself; where it is unproved that is no failure here, and one of tests/checks/package.py
OWN_VERSION = f"{VERSION} unproved" if is_unproved_library(LIB) else VERSION
WORK = pathlib.Path(tempfile.mkdtemp(prefix="hekaton"))


def run(command, given=None, **more):
    """What a command printed and its status, standard error behind it."""
    done = subprocess.run([str(word) for word in command], input=given, capture_output=True, timeout=120, check=False, **more)
    return done.stdout.decode(errors="replace") + done.stderr.decode(errors="replace"), done.returncode


def exports():
    """The functions that the header declares."""
    return sorted(set(re.findall(r"^\w[\w ]*[ *](hk_\w+)\(", HEADER.read_text(encoding="utf-8"), re.MULTILINE)))


def made():
    """lib/, and that only the exports are to be seen in it."""
    for name in ("libhekaton.a", "libhekaton.so"):
        if not (LIB / name).exists():
            report("the library", [f"lib/{name} is not built"])
            return False
    seen, _ = run(["nm", "-D", "--defined-only", LIB / "libhekaton.so"])
    wanted, _ = run(["nm", "-u", LIB / "libhekaton.a"])
    archive, _ = run(["nm", "-g", "--defined-only", LIB / "libhekaton.a"])
    names = [sorted(line.split()[-1] for line in text.splitlines() if " T " in line) for text in (seen, archive)]
    needs = sorted(line.split()[-1] for line in wanted.splitlines() if " U " in line or line.strip().startswith("U "))
    other = [name for name in needs if name not in ("malloc", "realloc", "free", "memcpy", "memmove", "memset", "memcmp", "_GLOBAL_OFFSET_TABLE_", "abort", "bcmp")]
    report(f"lib/: {len(exports())} exports and no other name", differ([("libhekaton.so", names[0], exports()), ("libhekaton.a", names[1], exports()),
                                                                       ("what it needs", other, [])]))
    return True


def play_lines():
    """The sessions of the vectors as lines, and what is to be answered: step by step, and the worked ones each in one call; behind them
    the malformed requests, each in one call."""
    lines, wanted = [], []
    for it in json.loads((ROOT / "tests" / "vectors" / "sessions.json").read_text(encoding="utf-8")):
        lines.append(f"open {it['log']} {it['streams']}")
        wanted.append("0 ")
        for number, (sent, told) in enumerate(it["steps"]):
            if told[8:14] == "012429":
                break  # a node that met a conflict answers nothing more; a replica alone has it refused, and nothing is changed
            lines.append(f"call {sent}")
            wanted.append(f"{it['ends'] if number == len(it['steps']) - 1 else 0} {told}")
    for it in json.loads((ROOT / "tests" / "vectors" / "worked_sessions.json").read_text(encoding="utf-8")):
        lines += [f"open {it['log']} {it['streams']}", f"call {it['asked']}"]
        wanted += ["0 ", f"{it['number']} {it['told']}"]
    faults = json.loads((ROOT / "tests" / "vectors" / "request_faults.json").read_text(encoding="utf-8"))
    lines.append("open 7 1")
    wanted.append("0 ")
    for it in faults:
        lines.append(f"call {it['bytes']}")
        wanted.append(f"{it['number']} 000000130124{it['number']:02x}" + "00" * 16)
    return "\n".join(lines) + "\n", wanted


def plays(name, command, **more):
    """The vectors through a program of a language."""
    given, wanted = play_lines()
    said, status = run(command, given.encode(), **more)
    got = said.split("\n")[:-1]
    problems = differ(list(zip([f"line {n}: {line[:80]}" for n, line in enumerate(given.splitlines(), 1)], [line.strip() for line in got], [w.strip() for w in wanted])))
    report(f"{name}: the vectors, {len(wanted)} calls", problems + differ([("lines", len(got), len(wanted)), ("status", status, 0)]))


def compiled(name, command):
    """Whether a compiler took it."""
    said, status = run(command)
    if status:
        report(name, [said[-600:]])
    return status == 0


def named():
    """The refusals that the header names are those of docs/FORMATS.md, with its numbers, in C89 and in C++."""
    part = (ROOT / "docs" / "FORMATS.md").read_text(encoding="utf-8").split("## Faults and refusals")[1].split("\n## ")[0]
    wanted = {"HK_" + re.sub(r"(?<!^)(?=[A-Z])", "_", name).upper(): int(number) for number, name in re.findall(r"^\| (\d+) \| (\w+)", part, re.M)}
    wanted["HK_CLOSED_HANDLE"] = 255
    header = HEADER.read_text(encoding="utf-8")
    problems = differ([("names", sorted(re.findall(r"^    (HK_\w+) = ", header, re.M)), sorted(wanted))])
    told = "".join(f'    printf("%s %d\\n", "{name}", (int){name});\n' for name in wanted)
    source = WORK / "refusals.c"
    source.write_text(f'#include "hekaton.h"\n#include <stdio.h>\nint main(void) {{\n{told}    return 0;\n}}\n', encoding="utf-8")
    for words in (["gcc", "-std=c89", "-pedantic"], ["g++", "-x", "c++", "-std=c++11"]):
        if shutil.which(words[0]):
            said, status = run([*words, "-Wall", "-Wextra", "-Werror", f"-I{HEADER.parent}", source, "-o", WORK / "refusals"])
            got = run([WORK / "refusals"])[0].split() if status == 0 else [said]
            problems += differ([(words[0], dict(zip(got[::2], map(int, got[1::2]))) if status == 0 else said, wanted)])
    report(f"the refusals that the header names ({len(wanted)})", problems)


def in_c():
    """The C program: each function, the vectors, bad input, each request for memory refused."""
    source, program, starved = ROOT / "tests" / "c_library" / "library.c", WORK / "library", WORK / "starved"
    flags = ["-std=gnu89", "-O1", "-g", "-Wall", "-Wextra", "-Werror", f'-DWANTED_VERSION="{OWN_VERSION}"', *LINKED, source, LIB / "libhekaton.a", "-lpthread"]
    wraps = ["-DSTARVE", "-Wl,--wrap=malloc", "-Wl,--wrap=realloc"]
    strict = WORK / "strict.c"
    strict.write_text('#include "hekaton.h"\nint main(void) { hk_handle h = HK_CLOSED; hk_close(&h); return 0; }\n', encoding="utf-8")
    if not (compiled("the header in C89", ["gcc", "-std=c89", "-pedantic", "-Wall", "-Wextra", "-Werror", *LINKED, strict, LIB / "libhekaton.a", "-o", WORK / "strict"])
            and compiled("C", ["gcc", *flags, "-o", program]) and compiled("C, starved", ["gcc", *flags, *wraps, "-o", starved])):
        return
    page = WORK / "page.c"
    page.write_text(re.search(r"```c\n(.*?)```", (ROOT / "docs" / "EMBEDDING.md").read_text(encoding="utf-8"), re.DOTALL)[1], encoding="utf-8")
    said, status = run(["gcc", "-std=c99", "-Wall", "-Wextra", "-Werror", *LINKED, "-c", page, "-o", WORK / "page.o"])
    report("docs/EMBEDDING.md: the listing in C compiles", [said] if status else [])
    said, status = run([program])
    report("C: each function", [said] if status else [], said.strip().splitlines()[-1])
    shared = WORK / "shared"
    if compiled("C, shared", ["gcc", *flags[:-2], "-L", LIB, "-lhekaton", "-Wl,-rpath," + str(LIB), "-lpthread", "-o", shared]):
        said, status = run([shared])
        report("C over libhekaton.so", [said] if status else [])
    plays("C", [program, "play"])
    links = ROOT / "examples" / "links" / "first.bin"
    valgrind = ["valgrind", "-q", "--error-exitcode=9", "--leak-check=full", "--errors-for-leak-kinds=all"] if shutil.which("valgrind") else []
    if not valgrind:
        skip("valgrind is not installed: bad input runs without it")
    for name, command in (("handles that are moved", [program, "moved"]), ("each front of requests and items", [program, "cut", links]), ("10,000 mutated calls", [program, "mutate", links, "10000"]),
                          ("10,000 mutated calls of items", [program, "mutate", FIRST, "10000"]),
                          ("each request for memory refused in turn", [starved, "starve", links])):
        said, status = run([*valgrind, *command])
        report(f"C: {name}" + (" under valgrind" if valgrind else ""), [said] if status else [], said.strip()[:120])


def in_cpp():
    """The C++ example."""
    if not shutil.which("g++"):
        skip("g++ is not installed", needed=False)
        return
    program = WORK / "first_cpp"
    if compiled("C++", ["g++", "-std=c++11", "-Wall", "-Wextra", "-Werror", *LINKED, ROOT / "examples" / "embedding" / "first.cpp", LIB / "libhekaton.a", "-o", program]):
        report("C++: the first example", differ([("prints", run([program, FIRST]), (WORDS + "\n", 0))]))
        plays("C++", [program])


def in_rust():
    """The Rust crate and its examples, with no registry."""
    if not shutil.which("cargo"):
        skip("cargo is not installed", needed=False)
        return
    crate = WORK / "rust"
    shutil.copytree(ROOT / "clients" / "rust", crate, ignore=shutil.ignore_patterns("target", "Cargo.lock"))
    said, status = run(["cargo", "build", "--offline", "--examples", "--quiet"], cwd=crate, env={**os.environ, "HEKATON_LIB": str(LIB), "RUSTFLAGS": "-Dwarnings"})
    if status:
        report("Rust", [said[-600:]])
        return
    said, status = run([crate / "target" / "debug" / "examples" / "first", FIRST])
    lines = said.splitlines()
    report("Rust: the first example", differ([("prints", lines[:2], [WORDS, "1 rows, 1 with the tag"]), ("a refusal", lines[2][:11] if lines[2:] else "", "refused 26:"),
                                              ("the library's version", lines[3:], [f"version {OWN_VERSION}"]),
                                              ("status", status, 0)]))
    plays("Rust", [crate / "target" / "debug" / "examples" / "play"])


def in_go():
    """The Go example."""
    if not shutil.which("go"):
        skip("go is not installed", needed=False)
        return
    program, env = WORK / "first_go", {**os.environ, "CGO_ENABLED": "1", "CGO_CFLAGS": f"-I{ROOT / 'include'}", "CGO_LDFLAGS": f"-L{LIB} -l:libhekaton.a",
                                       "GOFLAGS": "-mod=mod", "GO111MODULE": "off", "GOPROXY": "off", "GOCACHE": str(WORK / "go"), "GOTOOLCHAIN": "local"}
    said, status = run(["go", "build", "-o", program, ROOT / "examples" / "embedding" / "first.go"], env=env)
    if status:
        report("Go", [said[-600:]])
        return
    report("Go: the first example", differ([("prints", run([program, FIRST]), (WORDS + "\n", 0))]))
    plays("Go", [program])


def in_python():
    """`vadungsil.embedded`, by ctypes over the shared library."""
    os.environ["HEKATON_LIBRARY"] = str(LIB / "libhekaton.so")
    said = run([sys.executable, ROOT / "examples" / "embedding" / "first.py", FIRST], env={**os.environ, "PYTHONPATH": str(ROOT / "clients" / "python"), "PYTHONDONTWRITEBYTECODE": "1"})
    report("Python: the first example", differ([("prints", said, (WORDS + "\n", 0))]))
    import vadungsil as va
    from vadungsil.embedded import Replica
    problems, given, wanted = [], *play_lines()
    replica = None
    for line, told in zip(given.splitlines(), wanted):
        words = line.split(" ")
        if words[0] == "open":
            replica = Replica(int(words[1]), int(words[2]))
        else:
            problems += differ([(line[:80], replica.call(bytes.fromhex(words[1])).hex(), told.split(" ")[1])])
    report(f"Python: the vectors, {len(wanted)} calls", problems)
    report("Python: as a node", as_a_node(va, Replica))


def as_a_node(va, Replica):
    """What the interface of a node gives over a replica in the process."""
    writer, problems = va.LogWriter(7, 1), []
    items = [writer.commit([(1, key, key % 3, bytes([key]))], [], 1) for key in range(1, 30)] + [writer.mark(1)]
    with Replica(7, 1) as replica, Replica(7, 1) as peer:
        replica.items(items)
        last = replica.front().readable
        rows = [(key, key % 3, bytes([key])) for key in range(1, 30)]
        told = [(it.key, it.row.tag, it.row.body) for it in replica.range(1)]
        problems += differ([("range", told, rows), ("count", replica.count(1), 29), ("typed get", replica.get(1, 7, at=last), va.Row(1, b"\7")), ("get", replica.get(1, 7), va.Row(1, b"\7")),
                            ("no row", replica.get(1, 99, at=last), None), ("by tag", [it.key for it in replica.by_tag(1, 2)], [key for key in range(1, 30) if key % 3 == 2])])
        peer.merge(replica)
        problems += differ([("merged", peer.range(1), replica.range(1)), ("a pipeline", piped(replica), 29)])
        for name, call, number in (("not yet", lambda: replica.get(1, 7, at=last + 1), 26), ("ahead of the mark", lambda: replica.prune(last + 1), 24), ("streams", lambda: Replica(7, 65), 5)):
            try:
                call()
                problems.append(f"{name}: not refused")
            except va.Refused as why:
                problems += differ([(name, why.number, number)])
        replica.close()
        try:
            replica.front()
            problems.append("a closed replica answers")
        except ValueError:
            pass
    return problems


def piped(replica):
    """A count by a pipeline."""
    with replica.pipeline() as pipe:
        later = pipe.count(1)
    return later.result()


def listed_lines():
    """The lines of the page's listings in C++, Rust, Python and Go that stand in no example."""
    files = [it for folder in ("examples/embedding", "clients/rust/examples") for it in (ROOT / folder).iterdir() if it.is_file()]
    lines = {line.strip() for it in files for line in it.read_text(encoding="utf-8").splitlines()}
    listed = [line for it in of("c_library.py listings") if it.how != "c" for line in it.text.splitlines()]
    return [line for line in listed if line.strip() not in lines] + ([] if len(listed) >= 20 else [f"{len(listed)} lines"])


def in_page():
    """docs/EMBEDDING.md: the lines of its listings stand in the examples, and its commands, typed in a copy, print what they say."""
    tree = WORK / "tree"
    report("docs/EMBEDDING.md: what it lists stands in the examples", listed_lines())
    for folder in ("include", "lib", "examples", "clients"):
        shutil.copytree(ROOT / folder, tree / folder, symlinks=True, ignore=shutil.ignore_patterns("target", "Cargo.lock", "__pycache__"))
    (tree / "feed.c").write_text("".join(it.text for it in of("c_library.py listings") if it.how == "c"), encoding="utf-8")
    problems, count = [], 0
    for it in of("c_library.py commands"):
        tool = re.sub(r"\w+=(\S*\".*?\"|\S+) ", "", it.text).split()[0]
        if not tool.startswith("./") and not shutil.which(tool):
            skip(f"{tool} is not installed: a command of docs/EMBEDDING.md isn't typed", needed=False)
            continue
        count += 1
        command = it.text.replace("$(pkg-config --cflags --libs hekaton)", "-Iinclude -Llib -l:libhekaton.a")
        printed, status = run(["bash", "-c", command], cwd=tree, env={**os.environ, "CARGO_NET_OFFLINE": "true"})
        problems += [f"{command}: status {status}, {printed[-300:]}"] if status or it.printed not in printed else []
    report(f"docs/EMBEDDING.md: its commands ({count})", problems + ([] if count >= 5 else ["too few"]))


def main(words):
    if not shutil.which("gcc"):
        skip("gcc is not installed: the library for C is not tested")
        return ended()
    try:
        if not words or "named" in words:
            named()
        if words != ["named"] and made():
            for check in (in_c, in_cpp, in_rust, in_go, in_python, in_page):
                if not words or check.__name__ in words:
                    check()
    finally:
        shutil.rmtree(WORK, ignore_errors=True)
    return ended()


if __name__ == "__main__":
    sys.exit(main(sys.argv[1:]))
