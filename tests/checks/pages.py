#!/usr/bin/env python3
"""What the pages show is what there is: listings are lines of files that the gate proves or runs, commands run and print
what the page says, the pictures are what their scripts draw, and each link leads to a file. Each command and listing of a page has a
check that types it (tests/lib/shown.py), or stands below in UNTYPED with the reason. Needs bin/hkrep, or bin/hkrep-unproved.

    pages.py            all checks
    pages.py NAME..     these
    pages.py 10         the pages that a new user pastes (tests/checks/pasted.py), ten times each: by hand"""
import functools
import json
import os
import pathlib
import re
import shutil
import socket
import subprocess
import sys
import tempfile

sys.path.append(str(pathlib.Path(__file__).resolve().parents[1] / "lib"))
from checks import differ, ended, free_port, is_built, report, skip
from figures import FOLDER, sum_of
from pasted import pasted
from shown import BESIDE, PAGES, all_shown, checker, of

ROOT = pathlib.Path(__file__).resolve().parents[2]
PROVED, UNPROVED = ROOT / "bin" / "hkrep", ROOT / "bin" / "hkrep-unproved"
PROGRAM = PROVED if PROVED.exists() or not UNPROVED.exists() else UNPROVED

# What the gate doesn't type, and why; what begins so. Of each of these a check sees that it is there.
UNTYPED = {
    "rt check": "proves a crate: minutes, and the gate's `rt ci` does the same",
    "rt ci": "tests/cost runs it, for an hour; of one crate for minutes",
    "rt lib": "as rt check",
    "rt try": "builds a crate with the compiler's checks of memory: half a minute each",
    "rt must-fail": "a part of rt ci",
    "rt plant": "runs for hours, by hand",
    "make quick": "minutes of the compiler; a program that is proved is what the gate has",
    "make quick-lib": "minutes of the compiler; tests/checks/unproved.py looks at what goes into it",
    "tests/tools/quick": "builds a program for minutes, and times it beside the proved one: by hand",
    "tests/tools/dear": "proves a crate from nothing: minutes, by hand",
    "make lib": "proves anew what tests/tools/library --gate took from the gate",
    "make test": "is the gate",
    "make": "proves what the gate has proved",
    "make crate": "proves a crate: a minute and more",
    "make fn": "proves a function: seconds to minutes, by hand",
    "make edits": "proves what each edit of a crate changes: minutes, by hand",
    "make lint": "the gate runs its recipe as a check of its own",
    "make hooks": "puts a hook into the clone",
    "STORY=WORDS tests/checks/postgres.py": "plays some of the stories that the gate plays whole",
    "bench/core": "proves a dozen crates, by hand",
    "bench/node": "needs what bench/core builds",
    "debootstrap": "fetches a Debian; tests/checks/package.py makes a root of what is here",
    "make measures": "draws figures that were measured by hand; each picture is held beside its figures",
    "make engine-lab": "network namespaces, as root, for minutes",
    "connectors/nats/get-server": "fetches a package: .ci/run types it",
    "systemctl": "needs a machine that systemd runs; tests/checks/package.py types the unit's own command line",
}

# What stands in a command of a page for something of the reader's own; a port is a free one.
STAND_INS = {"FILE": "/dev/shm/hkrep.save", "FRAMES": "examples/first.bin", "orders.log": "examples/first.bin", "NAME": "half_fed", "TIME": "1"}
PORTS = r"\b(742\d|(?<=--port )P|(?<=--port )Q)\b"


def sources():
    return [*(ROOT / "crates").glob("use_*/src/*.rt"), *(ROOT / "examples").glob("links/*.py")]


def listings():
    """What uses/README.md and docs/CONTRIBUTING.md list stands in a source."""
    texts = {"uses/README.md": [path.read_text() for path in sources()],
             "docs/CONTRIBUTING.md": [path.read_text() for name in ("hk_oplog", "hk_node", "hk_types", "hk_host", "hk_link_state", "hk_seats", "hk_cli_arguments")
                                      for path in (ROOT / "crates" / name).glob("**/*") if path.suffix in (".rt", ".antt", ".edit")]}
    mine = of("pages.py listings")
    problems = [f"{it.page}: {it.text.splitlines()[0]}" for it in mine if not any(it.text.removesuffix("\n") in text for text in texts[it.page])]
    report(f"what uses/README.md and docs/CONTRIBUTING.md list are lines of files ({len(mine)})", problems)


def pictures():
    for script, drawn in (("streams", "docs/streams.svg is"), ("pictures", "docs/answer.svg, nodes.svg and trust.svg are")):
        got = subprocess.run([ROOT / "docs" / script, "--check"], stderr=subprocess.PIPE, text=True, check=False)
        report(f"{drawn} what docs/{script} draws", [got.stderr] if got.returncode else [])


def calling():
    got = subprocess.run([ROOT / "docs" / "calling", "--check"], stderr=subprocess.PIPE, text=True, check=False)
    report("each CALLING.md is as the sources say", [got.stderr] if got.returncode else [])


def commands():
    listed = re.findall(r"^hkrep (\w+) ", of("pages.py commands")[0].text, re.M)
    got = subprocess.run([PROGRAM, "--help"], stdout=subprocess.PIPE, text=True, check=False)
    known = [line.split()[0] for line in got.stdout.splitlines() if re.match(r"  [a-z]+ ", line) and line.split()[0] != "help"]
    report("GETTING_STARTED lists each command", [] if sorted(listed) == sorted(known) else [f"{listed}, and --help has {known}"])


def asked_node():
    """The node that uses/README.md asks, on a free port."""
    port = str(free_port())
    node = subprocess.Popen([PROGRAM, "serve", "--log", "7", "--streams", "1", "--port", port, "--links", "1"], stdout=subprocess.PIPE, text=True)
    node.stdout.readline()
    words = of("pages.py asked node")[0].text.replace("7420", port).split()
    got = subprocess.run([sys.executable, *words], cwd=ROOT, stdout=subprocess.PIPE, stderr=subprocess.STDOUT, text=True, timeout=60, check=False)
    ended, _ = node.communicate(timeout=60)
    wanted = "front 01 21 00 00 00 00 00 00 00 00 00 00 00 00 00 00 00 01\ntag 9 body 41\n"
    problems = [] if got.stdout == wanted and ended == "ended 0\n" and node.returncode == 0 else [got.stdout + ended]
    report("examples/links/ask.py asks a node", problems)


def bash(command):
    command = command.replace("bin/hkrep", str(PROGRAM.relative_to(ROOT))) if PROGRAM == UNPROVED else command
    ran = subprocess.run(["bash", "-c", command], cwd=ROOT, stdout=subprocess.PIPE, stderr=subprocess.PIPE, text=True, errors="replace", timeout=60, check=False)
    return ran.stdout, ran.returncode


def as_said(printed, said):
    """Whether it printed what a comment says: lines, or a file."""
    if said.startswith("prints "):
        return printed == (ROOT / said.removeprefix("prints ")).read_text()
    return not said or printed.splitlines() == re.split(r", then |, ", said)


def serving(port):
    node = subprocess.Popen([PROGRAM, "serve", "--log", "7", "--streams", "1", "--port", port, "--links", "30", "--messages", "2"], stdout=subprocess.PIPE)
    node.stdout.readline()
    return node


@functools.cache
def whole_of_a_node():
    """What `save` writes of a node that took the first items."""
    port = str(free_port())
    node = serving(port)
    bash(f"bin/hkrep feed --port {port} < examples/first.bin")
    saved = subprocess.run([PROGRAM, "save", "--port", port], stdout=subprocess.PIPE, timeout=60, check=False).stdout
    node.kill()
    node.communicate(timeout=60)
    return saved


def started_node(command, port):
    """A command of a page that starts a node: what it printed once links can be opened, and status 0."""
    node = subprocess.Popen(["bash", "-c", f"exec {command.removesuffix('&')}"], cwd=ROOT, stdout=subprocess.PIPE, text=True)
    line = node.stdout.readline()
    node.kill()
    node.communicate(timeout=60)
    return line, 0 if line == f"listening {port}\n" or line.startswith(f"listening on 127.0.0.1:{port} ") else 1


def asked_of_nodes(command, port):
    """A command of a page that asks a node, which took the first items but for `push`, `feed` and `load`; another one beside it took them."""
    other = str(free_port())
    nodes = [serving(port), serving(other)]
    for at in [other] if re.search(r" (push|feed|load) ", command) else [port, other]:
        bash(f"bin/hkrep feed --port {at} < examples/first.bin")
    command = re.sub(r"(?<=--from )Q\b", other, command)
    with tempfile.NamedTemporaryFile() as saved:
        saved.write(whole_of_a_node())
        saved.flush()
        got = bash(f"{command} < {saved.name}" if " load " in command else command)
    for node in nodes:
        node.kill()
        node.communicate(timeout=60)
    return got


def typed_command(text):
    """A command of a page, with what stands for the reader's own: what was typed, what it printed, and its status."""
    port = str(free_port())
    command = re.sub(PORTS, port, text)
    for word, stands_for in STAND_INS.items():
        command = re.sub(rf"\b{word}\b", stands_for, command)
    command = command if command.startswith("bin/") else f"bin/{command}"
    if re.search(" (serve|node) ", command):
        command = command if " --port " in command else command.replace(" node ", f" node --port {port} ")
        return command, *started_node(command.replace("bin/hkrep", str(PROGRAM)), port)
    if " --log " in command and " < " not in command:
        command += " < examples/first.bin"
    return command, *(asked_of_nodes(command, port) if " --port " in command else bash(command))


def shown_commands():
    """Each command with hkrep that a page shows runs, and prints what the page says."""
    problems, commands_shown = [], {(it.text, it.printed): it.page for it in of("pages.py typed")}
    for (text, printed), page in commands_shown.items():
        command, got, status = typed_command(text)
        is_refused = bool(re.search(r"^refused", got, re.M))
        if status != is_refused or not (got or " --out " in command) or not as_said(got, printed):
            problems.append(f"{page}: {command}: status {status}, printed {got[:200]!r}")
    report(f"each command with hkrep that a page shows runs and prints what the page says ({len(commands_shown)})", problems)


def names():
    """What is named without words behind it is a command of hkrep, and an option that is named is one of it."""
    problems = []
    for it in of("pages.py names"):
        if it.text.startswith("python3"):
            place = ROOT / "clients" / "python" / it.text.split()[-1].replace(".", "/")
            problems += [] if place.is_dir() or place.with_suffix(".py").is_file() else [it.text]
            continue
        command, *options = [word for word in it.text.split()[1:] if word != ".."]
        helped, status = bash(f"bin/hkrep help {command}")
        problems += [f"{it.page}: {it.text}"] if status or any(word.startswith("--") and word not in helped for word in options) else []
    report("each command of hkrep that a page names is there", problems)


def started():
    """The pages that a new user pastes."""
    of("pages.py pasted")
    pasted(PROGRAM, 1)


def examples_of(command):
    """The lines of the example in a command's help."""
    helped, _ = bash(f"bin/hkrep help {command}")
    return re.findall(r"^  ((?:echo .* \| )?hkrep .*)$", helped, re.M)


def run_example(line, ports, folder):
    """Runs a line of an example, with free ports for those that it names and in a folder for what it writes."""
    if line.endswith("&"):
        port = str(free_port())
        line = line.replace("7426", port).replace("7427", str(free_port())).replace("hkrep", str(PROGRAM), 1)
        return line, started_node(line, port)
    for named, port in ports.items():
        line = line.replace(named, port)
    line = re.sub(r"\bhkrep\b", "bin/hkrep", line).replace("second.bin", f"{folder}/second.bin").replace("whole.bin", f"{folder}/whole.bin")
    return line, bash(line)


def helped():
    """Each command's help has an example, which runs; those with a port are asked of nodes, one of which took the first items."""
    listed, _ = bash("bin/hkrep --help")
    known = [line.split()[0] for line in listed.splitlines() if re.match(r"  [a-z]+ ", line) and line.split()[0] not in ("help", "world")]
    ports = {"7426": str(free_port()), "7427": str(free_port())}
    nodes = [serving(port) for port in ports.values()]
    problems = []
    try:
        bash(f"bin/hkrep feed --port {ports['7426']} < examples/first.bin")
        with tempfile.TemporaryDirectory() as folder:
            for command in sorted(known, key=lambda it: (it == "prune", it == "load", it)):
                lines = examples_of(command)
                problems += [] if lines else [f"{command} has no example"]
                for line in lines:
                    line, (printed, status) = run_example(line, ports, folder)
                    if status != 0 or (not printed and not re.search(" > | --out ", line)):
                        problems.append(f"{line}: status {status}, printed {printed[:100]!r}")
    finally:
        for node in nodes:
            node.kill()
            node.communicate()
    for word, wanted in (("--help", ("get-server FOLDER", 0)), ("--what", ("usage: get-server FOLDER", 64)), ("", ("usage: get-server FOLDER", 64))):
        said, status = bash(f"connectors/nats/get-server {word} 2>&1")
        problems += differ([(f"get-server {word}", (wanted[0] in said, status), (True, wanted[1]))])
    report("each command's help has an example, and it runs", problems or ([] if len(known) >= 10 else [f"only {known}"]))


def untyped(text):
    """What of UNTYPED a line is, or None: its first two words, or the tool where that has no commands of its own."""
    words = text.removeprefix("NEED_ALL=1 ").split()
    first, two = words[0], " ".join(words[:2])
    return two if two in UNTYPED else first if first in UNTYPED and first not in ("make", "rt") else None


# what runs the recipe of a target that a page names
RUNS = {"try": "pages.py", "demo": "pages.py", "serve-demo": "hkrep/links.py", "look": "web.py", "redis-demo": "connectors.py", "nats-demo": "engine.py", "shop-demo": "postgres.py", "package": "package.py",
        "install": "package.py", "compare": "../all", "bench": "benches.py"}


def recipe(target):
    """The last line of what make would run, if all that it stands on were new."""
    return bash(f"make --no-print-directory -n -o bin/hkrep -o bin/hkrep-unproved {target}")[0].splitlines()[-1]


def runs_recipe(target):
    """Whether the check that RUNS names has the recipe's program, or reads the recipe off the Makefile."""
    if target not in RUNS:
        return False
    check, word = (ROOT / "tests" / "checks" / RUNS[target]).read_text(), recipe(target).split()[0].split("/")[-1]
    return RUNS[target] == "pages.py" or word in check or f"^{target}:" in check


def made():
    """Each `make` that a page names is in the Makefile, and a check types its recipe."""
    lines = [line.partition("#")[0].removeprefix("NEED_ALL=1 ").split() for it in of("pages.py made") for line in it.text.splitlines()]
    targets, problems = sorted({"try", *(words[1] if len(words) > 1 else "" for words in lines)}), []
    for target in targets:
        problems += [f"make {target} is none"] if bash(f"make -n {target}")[1] else []
        problems += [] if untyped(f"make {target}".strip()) or runs_recipe(target) else [f"nothing runs make {target}"]
    for target in ("try", "demo"):
        got = bash(re.sub(r"bin/hkrep(-unproved)?", "bin/hkrep", recipe(target)))
        problems += differ([(f"make {target}", got, ("9 41\n", 0))])
    report(f"each make of a page is in the Makefile, and its recipe is typed ({len(targets)})", problems)


def formatted():
    """`rt fmt` in a copy of a crate leaves it as it is."""
    with tempfile.TemporaryDirectory() as folder:
        copy = pathlib.Path(folder) / "crates" / "hk_cli_reasons"
        shutil.copytree(ROOT / "crates" / "hk_cli_reasons", copy, ignore=shutil.ignore_patterns("out"))
        for name in ("crates.txt", "HANDLES"):
            shutil.copy(ROOT / name, folder)
        ran = subprocess.run(["rt", "fmt"], cwd=copy, stdout=subprocess.PIPE, stderr=subprocess.STDOUT, text=True, timeout=60, check=False)
        changed = [str(it.relative_to(copy)) for it in copy.rglob("*") if it.is_file() and it.read_bytes() != (ROOT / "crates" / "hk_cli_reasons" / it.relative_to(copy)).read_bytes()]
    return ([ran.stdout] if ran.returncode else []) + [f"rt fmt changes {it}" for it in changed]


def toolchain():
    """Each command of the toolchain that a page names is one that `rt help` has; those that cost little are typed."""
    if not shutil.which("rt"):
        skip("no toolchain is here: its commands in the pages are not looked for")
        return
    said, problems = bash("rt help 2>&1")[0], []
    for text in sorted({it.text for it in of("pages.py toolchain")}):
        word = text.split()[1]
        problems += [] if re.search(rf"\b(?:rt |\|){word}\b", said) else [f"{text} is no command"]
        problems += [] if word in ("version", "doc", "fmt") or untyped(text) else [f"nothing types {text}"]
        problems += [word for word in re.findall(r" (--\w+)", text) if word not in said]
    logics = {it for page in PAGES for it in re.findall(r"`(logic \w+)`", page.read_text())}
    problems += [it for it in logics if it not in bash("rt version 2>&1")[0]] + ([] if pathlib.Path(bash("rt doc")[0].strip()).is_file() else ["rt doc names no page"])
    report("each rt of a page is one of the toolchain's, and the logic is this one", problems + formatted())


def installed_by_pip(lines):
    """What is wrong with lines of `pip install`, typed with a folder of their own and without a network."""
    pip = "pip" if shutil.which("pip") else f"{sys.executable} -m pip"
    if bash(f"{pip} --version")[1]:
        skip("pip is not installed: what it is told in the pages isn't typed", needed=False)
        return []
    problems = []
    for line in lines:
        with tempfile.TemporaryDirectory() as folder:
            environment = {**os.environ, "PIP_TARGET": folder, "PIP_NO_INDEX": "1", "PIP_DISABLE_PIP_VERSION_CHECK": "1"}
            ran = subprocess.run(["bash", "-c", line.replace("pip", f"{pip} -q", 1)], cwd=ROOT, env=environment, stdout=subprocess.PIPE, stderr=subprocess.STDOUT,
                                 text=True, timeout=60, check=False)
            problems += [] if ran.returncode == 0 and (pathlib.Path(folder) / "vadungsil" / "__init__.py").exists() else [f"{line}: {ran.stdout[-300:]}"]
    return problems


def known_to_apt(lines):
    """What is wrong with lines of `apt-get install`: what they name stands in tests/packages, and apt says what it would do."""
    known, problems = (ROOT / "tests" / "packages").read_text().split(), []
    for line in lines:
        wanted = bash(f"echo {line.removeprefix('apt-get install ')}")[0].split()
        problems += [f"{line}: {name} isn't in tests/packages" for name in wanted if name not in known]
        said, status = bash(f"{line.replace('apt-get', 'apt-get --simulate', 1)} 2>&1") if shutil.which("apt-get") else ("Unable to locate", 1)
        if "Unable to locate" in said:
            skip(f"apt knows no packages here: {line}", needed=False)
        else:
            problems += [f"{line}: {said[-300:]}"] if status else []
    return problems


def packages():
    """What the pages tell pip and apt-get to install."""
    lines = sorted({it.text for it in of("pages.py packages")})
    problems = installed_by_pip([it for it in lines if it.startswith("pip install .")]) + known_to_apt([it for it in lines if it.startswith("apt-get ")])
    report(f"what pip and apt-get are told to install ({len(lines)})", problems)


def history():
    """The changes that CONTRIBUTING goes through are in the history, of the sizes that it says; where the history is here."""
    commits, pairs = [it.text.split()[-1] for it in of("pages.py history")], []
    text = (ROOT / "docs" / "CONTRIBUTING.md").read_text(encoding="utf-8")
    sizes = re.findall(r"`git show (\w+)`.*?touched (\d+) files: (\d+) lines came, (\d+) went", text, re.S)
    for commit, size in zip(commits, sizes):
        said, status = bash(f"git -c safe.directory='*' show --shortstat --format= {commit}")
        if status:
            skip(f"no commit {commit} is here: the change that docs/CONTRIBUTING.md goes through isn't looked at", needed=False)
            continue
        pairs.append((f"the size of {commit}", (commit, *re.findall(r"\d+", said)), size))
    report(f"the changes that docs/CONTRIBUTING.md goes through ({len(pairs)})", differ(pairs) + ([] if len(sizes) == len(commits) else ["a size is lacking"]))


# the check that runs a script which tests/all doesn't run itself
RUN_BY = {"docs/calling": "pages.py", "docs/streams": "pages.py", "docs/pictures": "pages.py", "examples/make": "pages.py", "examples/node": "package.py",
          "examples/links/two_feeders.py": "hkrep/links.py", "examples/kafka/try.py": "connectors.py", "connectors/redis/publish": "connectors.py", "connectors/redis/follow": "connectors.py",
          "connectors/nats/follow": "engine.py", "connectors/file/follow": "postgres.py", "connectors/postgres/capture": "postgres.py",
          "tests/tools/make_vectors.py": "python_client.py"}


def is_run(script):
    """Whether tests/all runs a script, or the check that RUN_BY names has its name."""
    everything = (ROOT / "tests" / "all").read_text()
    if script == "tests/all" or script in everything or f'"{script.removeprefix("tests/checks/")}' in everything:
        return True
    return script in RUN_BY and script.split("/")[-1] in (ROOT / "tests" / "checks" / RUN_BY[script]).read_text()


def scripts():
    """Each script of the tree that a page names is run by a check, or stands in UNTYPED; examples/make writes what is there."""
    named = sorted({it.text.removeprefix("python3 ").split()[0] for it in of("pages.py scripts")})
    problems = [f"nothing runs {name}" for name in named if not untyped(name) and not is_run(name)]
    with tempfile.TemporaryDirectory() as folder:
        shutil.copytree(ROOT / "examples", f"{folder}/examples", ignore=shutil.ignore_patterns("*.bin"))
        subprocess.run([sys.executable, f"{folder}/examples/make"], timeout=60, check=True)
        made_here = {it.relative_to(folder): it.read_bytes() for it in pathlib.Path(folder).rglob("*.bin")}
    problems += [f"{name} isn't what examples/make writes" for name, data in made_here.items() if (ROOT / name).read_bytes() != data]
    report(f"each script that a page names is run by a check ({len(named)})", problems if made_here else [*problems, "examples/make writes nothing"])


def crates_listed():
    return re.findall(r"^([a-z]\w*)[ :]", (ROOT / "crates.txt").read_text(), re.M)


def crates():
    """The map has each crate."""
    drawn = of("pages.py crates")[0].text
    there = crates_listed()
    report("the map of docs/ARCHITECTURE.md has each crate", [name for name in there if not re.search(rf"\b{name}\b", drawn)] if len(there) > 20 else ["no crates"])


def kind_of(head):
    """The type of an `impl`, or the name of a trait, from its first line."""
    head = re.sub(r"^(?:pub )?(?:impl(?:<(?:[^<>]|<[^<>]*>)*>)?|trait) ", "", head)
    return re.match(r"\w+", head.rpartition(" for ")[2])[0]


def bodies(text, kind):
    """What stands in the `impl`s of a type, and in the trait of that name."""
    blocks = re.findall(r"^((?:pub )?(?:impl\b|trait )[^{;]*)\{(.*?)^\}$", text, re.M | re.S)
    return "".join(body for head, body in blocks if kind_of(" ".join(head.split())) == kind)


def has_function(path, name):
    """Whether a source has a function, which may be named behind its type."""
    kind, _, function = name.rpartition("::")
    text = path.read_text(encoding="utf-8") if path.is_file() else ""
    return bool(re.search(rf"\bfn {function}\b", bodies(text, kind) if kind else text))


def places_named(page):
    """The sources that a page names, and the function behind each, if one is named: of a crate's own page from its folder, else from crates/."""
    for where, name in re.findall(r"`((?:hk_\w+/|use_\w+/|hkrep/)?src/[\w/]+\.rt)(?:::(\w+(?:::\w+)?))?`", page.read_text(encoding="utf-8")):
        yield (page.parent if where.startswith("src/") else ROOT / "crates") / where, name


def functions():
    """Each source and function that a page names is there."""
    places = [(page, path, name) for page in PAGES for path, name in places_named(page)]
    problems = [f"{page.relative_to(ROOT)}: {path.relative_to(ROOT)}::{name}" for page, path, name in places if not (has_function(path, name) if name else path.is_file())]
    report(f"each source and function that a page names is there ({len(places)})", problems if len(places) > 40 else [*problems, f"only {len(places)}"])


# what the page of a crate has, in this order
HEADINGS = ["Begin here", "Promises", "Only tested", "Why so"]
MOST_LINES = 60


def unnamed(page):
    """The sources of a crate that its page doesn't name."""
    named = {path for path, _ in places_named(page)}
    return [it.name for it in (page.parent / "src").glob("*.rt") if it not in named and it.name != "lib.rt"]


def unknown(page):
    """The calls and clauses among the promises of a crate's page that its sources don't have; a name that ends with a stroke is a beginning."""
    promises = page.read_text(encoding="utf-8").partition("## Promises\n")[2].partition("## ")[0]
    sources = "".join(it.read_text(encoding="utf-8") for it in sorted((page.parent / "src").glob("**/*.rt")))
    spans = [it for it in re.findall(r"`([^`]*)`", promises) if re.fullmatch(r"[\w:{}, ]+", it)]
    names = {name for span in spans for name in re.findall(r"\w+", span.rpartition("::")[2])}
    return [name for name in sorted(names) if not re.search(rf"\b{name}{'' if name.endswith('_') else chr(92) + 'b'}", sources)]


def readmes():
    """Each crate has a page of few lines with the same headings, which names each of its sources, and of its calls and clauses none that it
    hasn't; so few lines have those beside crates/."""
    problems = []
    for name in crates_listed():
        page = ROOT / "crates" / name / "README.md"
        text = page.read_text(encoding="utf-8") if page.is_file() else ""
        headings = re.findall(r"^#+ (.*)$", text, re.M)
        problems += [] if headings == [name, *HEADINGS] else [f"{name} has the headings {headings}"]
        problems += [f"{name} doesn't name {source}" for source in unnamed(page)] if text else []
        problems += [f"{name} promises by {call}, which it hasn't" for call in unknown(page)] if text else []
    for page in [*(ROOT / "crates").glob("*/README.md"), *(ROOT / f"{it}/README.md" for it in BESIDE)]:
        lines = page.read_text(encoding="utf-8").count("\n") if page.is_file() else 0
        problems += [] if 0 < lines <= MOST_LINES else [f"{page.relative_to(ROOT)} has {lines} lines"]
    report(f"each crate has a README of at most {MOST_LINES} lines with the same headings, which names what is there", problems)


def drawn_paths():
    """The programs of a drawing of a page are there."""
    paths = {path for it in of("pages.py drawn") for path in re.findall(r"\w+(?:/\w+)+", it.text)}
    report("what docs/CONNECTORS.md draws is there", [path for path in paths if not (ROOT / path).is_file()] if paths else ["no path"])


def digits(line):
    """The bytes at the beginning of a line, up to its words."""
    return bytes.fromhex(re.match(r"((?:[0-9a-f]{2})+ ?)*", line.strip())[0])


def messages(lines):
    """The messages of a listing, one after the other: each begins at the margin."""
    found = []
    for line in lines:
        if not line.startswith(" "):
            found.append(b"")
        found[-1] += digits(line)
    return found


def bytes_shown():
    """Frames that FORMATS lists are read as items; the exchange that PROTOCOL lists is had with a node, whole and cut off."""
    frames = [digits(it.text) for it in of("pages.py bytes") if it.page == "docs/FORMATS.md"]
    told = subprocess.run([PROGRAM, "items"], input=b"".join(frames), stdout=subprocess.PIPE, timeout=60, check=False).stdout.decode().splitlines()
    commit, mark = "commit log 7 stream 1 number {0} time {0} ends {1} rows 1", "mark log 7 stream 1 n 1 m 1"
    pairs = [("the frames of docs/FORMATS.md", told, [commit.format(1, 0), commit.format(1, 0), mark, mark, commit.format(2, 1)])]
    *requests, done, answer, cut = messages([it.text for it in of("pages.py bytes") if it.page == "docs/PROTOCOL.md"])
    sent = b"".join(requests)
    pairs.append(("examples/links/first.bin", sent, (ROOT / "examples" / "links" / "first.bin").read_bytes()))
    for count, wanted in ((len(sent), done + answer), (100, done + cut)):
        port = str(free_port())
        node = serving(port)
        with socket.create_connection(("127.0.0.1", int(port)), timeout=60) as link, link.makefile("rb") as replies:
            link.sendall(sent[:count])
            link.shutdown(socket.SHUT_WR)
            pairs.append((f"the replies to {count} bytes", replies.read(), wanted))
        node.kill()
        node.communicate(timeout=60)
    report("the bytes of docs/FORMATS.md and docs/PROTOCOL.md", differ(pairs))


def messages_shown():
    """Each message of the table in docs/FORMATS.md is read by the Python client, and written by it as it stands there."""
    sys.path.insert(0, str(ROOT / "clients" / "python"))
    from vadungsil import later, messages
    rows = re.findall(r"^\| ([A-Z].*) \| `([0-9a-f]{8} 0[12] [0-9a-f ]+)` \|$", (ROOT / "docs" / "FORMATS.md").read_text(), re.M)
    pairs = []
    for name, text in rows:
        data = bytes.fromhex(text)
        them, first_reply = (messages, 32) if data[4] == 1 else (later, 64)
        decode, encode = (them.decode_request, them.encode_request) if data[5] < first_reply else (them.decode_reply, them.encode_reply)
        pairs.append((name, encode(decode(data)).hex(), data.hex()))
    report(f"the messages of docs/FORMATS.md ({len(pairs)})", differ(pairs) + ([] if len(pairs) >= 10 else ["too few"]))


# the forms of what standard error says, as docs/FORMATS.md shows them, and what fits each
FORMS = {"PLACE: refused NUMBER: WHAT WAS REFUSED; WHAT TO DO": r"(.+: )?refused \d+: .+; .+",
         "line N: THE LINE: WHAT IS WRONG; expected: THE FORM": r"line \d+: .+: .+; expected: .+"}


def words_shown():
    """What docs/FORMATS.md shows of standard error is what is said there, and has the forms that stand above it."""
    *forms, late, bad = [it.text for it in of("pages.py words")]
    entry = (ROOT / "examples" / "first.bin").read_bytes()[:53]
    pairs = [("the forms", forms, list(FORMS))]
    for words, data, wanted, form in (("at --log 7 --streams 1 1 1 5", entry, late, forms[0]), ("world", b"world 7 1 1\nbegin 1\ncommit 1 t\n", bad, forms[-1])):
        ran = subprocess.run([PROGRAM, *words.split()], input=data, stderr=subprocess.PIPE, stdout=subprocess.DEVNULL, timeout=60, check=False)
        said = ran.stderr.decode().strip()
        pairs += [(words, said, wanted), (f"the form of {words}", bool(re.fullmatch(FORMS.get(form, ""), said)), True)]
    report("what docs/FORMATS.md shows of standard error", differ(pairs))


# what a user reads, and how many words that may be
FOR_USERS = ("README.md", *(f"docs/{it}.md" for it in ("GETTING_STARTED", "PYTHON", "OPERATING", "CONNECTORS", "SECURITY", "SCALING", "EMBEDDING", "POSTGRESQL", "WHY_THIS")))
MOST_WORDS = 15_500


def short_enough():
    """The pages for users have at most so many words together."""
    words = sum(len((ROOT / it).read_text(encoding="utf-8").split()) for it in FOR_USERS)
    report(f"the {len(FOR_USERS)} pages for users have at most {MOST_WORDS:,} words", differ([("too many", max(words - MOST_WORDS, 0), 0)]))


def measured():
    """Each set of figures in docs/measures says its day and commit, and its picture is of these figures."""
    problems = []
    for path in sorted(FOLDER.glob("*.json")):
        told, picture = json.loads(path.read_text(encoding="utf-8")), path.with_suffix(".svg")
        problems += [f"{path.name} has no {it}" for it in ("measured", "commit") if it not in told]
        drawn = picture.read_text(encoding="utf-8") if picture.exists() else ""
        problems += [] if f"figures {sum_of(path)}," in drawn else [f"{picture.name} is not of {path.name}: make measures"]
    report("each picture of docs/measures is of its figures", problems or ([] if list(FOLDER.glob("*.json")) else ["no figures"]))


def accounted():
    """Nothing that a page shows is left over, no row of what the gate doesn't type is stale, and each other check asks for what is its own."""
    everything = all_shown()
    problems = [f"{it.page}: {it.text.splitlines()[0]}" for it in everything if checker(it) is None and not untyped(it.text)]
    problems += [f"no page shows {kind}" for kind in UNTYPED if not any(untyped(line) == kind for it in everything for line in it.text.splitlines() if line)]
    for check in sorted({checker(it) for it in everything} - {None}):
        name = check.split()[0]
        problems += [] if f'of("{check}")' in (ROOT / "tests" / "checks" / name).read_text() else [f"tests/checks/{name} doesn't ask for its {check.partition(' ')[2]}"]
        problems += [] if f'"{name}' in (ROOT / "tests" / "all").read_text() else [f"tests/all doesn't run {name}"]
    left = sorted({it.text.splitlines()[0] for it in everything if untyped(it.text)})
    report(f"each of {len(everything)} commands and listings is typed or looked at by a check, but for {len(UNTYPED)} kinds ({len(left)} lines)", problems)


def anchors(page):
    """The places in a page that a link may name: its headings, as the usual renderers write them."""
    headings = re.findall(r"^#+ (.*)$", re.sub(r"^```.*?^```$", "", page.read_text(encoding="utf-8"), flags=re.M | re.S), re.M)
    return {re.sub(r"[^\w -]", "", it.lower()).replace(" ", "-") for it in headings}


def links():
    problems = []
    for page in PAGES:
        for target, place in re.findall(r"\]\(([^)#:]*)(?:#([^)]*))?\)", page.read_text(encoding="utf-8")):
            path = page.parent / target if target else page
            if not path.exists() or (place and path.suffix == ".md" and place not in anchors(path)):
                problems.append(f"{page.relative_to(ROOT)}: {target}{'#' + place if place else ''}")
    report("each link of a page leads to a file, and to a heading where it names one", problems)


def main(words):
    if not is_built(PROGRAM):
        return ended()
    if words and words[0].isdecimal():
        pasted(PROGRAM, int(words[0]))
        return ended()
    for check in (accounted, measured, short_enough, listings, pictures, calling, commands, crates, functions, readmes, drawn_paths, bytes_shown, messages_shown, words_shown, names, shown_commands, started, helped,
                  made, toolchain, packages, history, scripts, asked_node, links):
        if not words or check.__name__ in words:
            check()
    return ended()


if __name__ == "__main__":
    sys.exit(main(sys.argv[1:]))
