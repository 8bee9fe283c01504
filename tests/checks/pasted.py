"""The pages that a new user pastes, pasted whole and as they stand: the node of README.md, docs/GETTING_STARTED.md and docs/PYTHON.md. Each goes into one
shell, in a folder that has the tree and nothing of an earlier run, with new nodes and no wait between its commands. Ports are as they stand, but for one that
somebody has: then a free one. Standard library only."""
import contextlib
import os
import pathlib
import re
import signal
import socket
import subprocess
import sys
import tempfile

sys.path.append(str(pathlib.Path(__file__).resolve().parents[1] / "lib"))
from checks import differ, free_port, report
from shown import all_shown

ROOT = pathlib.Path(__file__).resolve().parents[2]
LIMIT = 120
ENDS = r"<end \d+>\n"


def shown(page, how, start=""):
    """What a page shows in these ways that begins so, in its order."""
    return [it for it in all_shown() if it.page == page and re.fullmatch(how, it.how) and re.match(start, it.text)]


def with_texts(blocks, language):
    """Each listing of a language with the text below it, which has to be printed."""
    found = []
    for it in blocks:
        if it.how == language:
            found.append([it.text, ""])
        elif found:
            found[-1][1] = it.text
    return found


def python_of(blocks):
    """One run of Python of these listings."""
    marked = "".join(f"{block}\nprint('<end {number}>')\n" for number, block in enumerate(blocks))
    return f"python3 - <<'END'\n{marked}END\n"


def shell_of(blocks):
    return "".join(f"{block}\necho '<end {number}>'\n" for number, block in enumerate(blocks))


def readme():
    """The log that README.md writes, its node, what is typed to it, and what Python reads from it."""
    lines = shown("README.md", "set in", r"export PATH=|hkrep (node --log|feed|ask|status) ")
    writes, reads = shown("README.md", "python")
    prints = ["".join(f"{text}\n" for text in re.findall(r"# prints (.*)", it.text)) for it in (writes, reads)]
    wanted = [prints[0], *(f"{it.printed}\n" if it.printed else None for it in lines), prints[1]]
    return python_of([writes.text]) + shell_of([it.text for it in lines]) + python_of([reads.text]) + "kill $(jobs -p)\n", wanted


def getting_started():
    listed = with_texts(shown("docs/GETTING_STARTED.md", "sh|text"), "sh")
    return shell_of([block for block, _ in listed]), [said for _, said in listed]


def python_page():
    """docs/PYTHON.md: its node, its listings in one run of Python, and the commands of its last part."""
    nodes = shown("docs/PYTHON.md", "set in", "hkrep node ")
    listed = with_texts(shown("docs/PYTHON.md", "python|text"), "python")
    commands = shown("docs/PYTHON.md", "set in", "python3 -m vadungsil ")
    script = "".join(f"{it.text}\n" for it in nodes) + python_of([block for block, _ in listed]) + shell_of([it.text for it in commands])
    return script + "kill $(jobs -p)\n", [said for _, said in listed] + [f"{it.printed}\n" for it in commands]


# each page with how many pieces it has at least
PASTED = {"README.md": (readme, 6), "docs/GETTING_STARTED.md": (getting_started, 12), "docs/PYTHON.md": (python_page, 10)}


def is_free(port):
    with socket.socket() as it:
        it.setsockopt(socket.SOL_SOCKET, socket.SO_REUSEADDR, 1)
        try:
            it.bind(("127.0.0.1", port))
        except OSError:
            return False
    return True


def with_ports(script):
    """A script whose ports nobody has, that of a node which is given none among them."""
    script = re.sub(r"hkrep node (?!.*--port )", "hkrep node --port 7420 ", script)
    for port in sorted(set(re.findall(r"\b742\d\b", script))):
        if not is_free(int(port)):
            script = re.sub(rf"\b{port}\b", str(free_port()), script)
    return script


def reader(folder, program):
    """A folder as a reader of the pages has it, with the program under both of its names and the link to the one without proofs."""
    for entry in ROOT.iterdir():
        if entry.name not in ("bin", ".git"):
            (folder / entry.name).symlink_to(entry)
    (folder / "bin").mkdir()
    (folder / "bin" / "quick").mkdir()
    for name in ("hkrep", "hkrep-unproved", "quick/hkrep"):
        (folder / "bin" / name).symlink_to(program)


def run_in(folder, script):
    """What a script prints and tells in a shell of its own; the nodes that it leaves are ended with it."""
    environment = {**os.environ, "PATH": f"{folder / 'bin'}:{os.environ['PATH']}", "PYTHONPATH": str(ROOT / "clients" / "python"), "PYTHONDONTWRITEBYTECODE": "1"}
    with tempfile.TemporaryFile("w+") as out, tempfile.TemporaryFile("w+") as errors:
        with subprocess.Popen(["bash"], cwd=folder, env=environment, stdin=subprocess.PIPE, stdout=out, stderr=errors, text=True, start_new_session=True) as shell:
            try:
                shell.communicate(script, timeout=LIMIT)
            except subprocess.TimeoutExpired:
                errors.write(f"no end within {LIMIT} s")
            finally:
                with contextlib.suppress(ProcessLookupError):
                    os.killpg(shell.pid, signal.SIGKILL)
        out.seek(0)
        errors.seek(0)
        return out.read(), errors.read()


def without_nodes(printed):
    """What was printed, without what a node says of its port and its links, which comes when it comes: also inside a line that a command
    writes in pieces."""
    return re.sub(r"(listening|reading|ended) \d+\n|listening on .*\n", "", printed)


def problems_of(page, program):
    """What is wrong with a page, pasted once."""
    typed, least = PASTED[page]
    script, wanted = typed()
    script += "hash -r; command -v hkrep > /dev/null || echo 'hkrep is gone' >&2\n"
    with tempfile.TemporaryDirectory(prefix="pasted-") as name:
        folder = pathlib.Path(name)
        reader(folder, program)
        printed, told = run_in(folder, with_ports(script))
    pieces = re.split(ENDS, without_nodes(printed))
    problems = differ([(page, got, said) for got, said in zip(pieces, wanted) if said is not None])
    if "hkrep is gone" in told:
        problems.append(f"{page}: behind it the shell doesn't find hkrep any more")
    if not len(pieces) == len(wanted) + 1 >= least + 1:
        problems.append(f"{page}: {len(wanted)} pieces, {len(pieces) - 1} ended: {told[-300:]}")
    return [f"{problem}; {told[-300:]}" for problem in problems]


def pasted(program, times):
    """Each page, pasted so many times."""
    for page in PASTED:
        problems = [f"time {time}: {it}" for time in range(1, times + 1) for it in problems_of(page, program)]
        report(f"{page}, pasted as it stands" + (f", {times} times" if times > 1 else ""), problems)
