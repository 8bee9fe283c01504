#!/usr/bin/env python3
"""What is handed on: the packages of deploy/package, made by the steps of docs/RELEASE.md in a clone of its own, twice with the same sums; the
Debian package in a root where nothing is but a shell and the C library; manual pages, completions, the unit, the version number; and
`make install` with a program in C over it. Needs bin/hkrep and lib/. Ends with 'N passed, M failed'."""
import gzip
import os
import pathlib
import re
import runpy
import shutil
import subprocess
import sys
import tempfile
import time

sys.path.append(str(pathlib.Path(__file__).resolve().parents[1] / "lib"))
from checks import differ, ended, free_port, is_built, report, skip
from shown import of

ROOT = pathlib.Path(__file__).resolve().parents[2]
sys.dont_write_bytecode = True
sys.path[:0] = [str(ROOT / "deploy")]
from helped import helped, told  # noqa: E402

VERSION = (ROOT / "VERSION").read_text(encoding="utf-8").strip()
PAGE = (ROOT / "docs" / "RELEASE.md").read_text(encoding="utf-8")
OF_PAGE = {it.text for it in of("package.py released")}
WORK = pathlib.Path(tempfile.mkdtemp(prefix="package"))
CLONE, BARE = WORK / "clone", WORK / "bare"
DEB = CLONE / "dist" / f"vadungsil_{VERSION}_amd64.deb"
DEVELOPMENT = DEB.with_name(f"libhekaton-dev_{VERSION}_amd64.deb")
MAINTAINER = "Ada Example <ada@example.org>"
SHARED = "usr/share/vadungsil"
# git's settings here: who the commits of the clone are of, and that this clone may be another's
SETTINGS = "[user]\n\tname = test\n\temail = test@invalid\n[safe]\n\tdirectory = *\n"
GIT = {"GIT_CONFIG_GLOBAL": str(WORK / "gitconfig"), "GIT_CONFIG_NOSYSTEM": "1"}


def run(command, **more):
    """What a command printed, standard error behind it if it isn't told otherwise, and its status."""
    env = {**os.environ, **GIT, "LC_ALL": "C.UTF-8", "PYTHONDONTWRITEBYTECODE": "1", **more.pop("env", {})}
    shell = ["bash", "-c", command] if isinstance(command, str) else [str(it) for it in command]
    is_output_alone = more.pop("is_output_alone", False)
    done = subprocess.run(shell, stdin=subprocess.DEVNULL, capture_output=True, timeout=120, check=False, env=env, **more)
    errors = b"" if is_output_alone and done.returncode == 0 else done.stderr
    return (done.stdout + errors).decode(errors="replace"), done.returncode


def steps(heading):
    """The lines that a part of the page sets in, with the present number."""
    part = re.search(rf"^## {heading}$(.*?)(?=^## |\Z)", PAGE, re.M | re.S)[1]
    lines = re.findall(r"^    (\S.*)$", part, re.M)
    return [line.replace("NUMBER", VERSION) for line in lines if line.partition("  # ")[0].rstrip() in OF_PAGE]


def typed(lines):
    """The problems of lines that are typed in the clone."""
    problems = []
    for line in lines:
        said, status = run("make -n test" if line == "make test" else line, cwd=CLONE)
        problems += [f"{line}: status {status}: {said[-300:]}"] if status else []
        problems += [f"{line}: {said}"] if line.startswith("git status") and said else []
    return problems


def cloned():
    """A clone of the commit with what is changed beside it, with bin/ and lib/ and something to commit."""
    (WORK / "gitconfig").write_text(SETTINGS, encoding="utf-8")
    run(["git", "clone", "-q", "--shared", ROOT, CLONE])
    changed = run(f"git -C '{ROOT}' diff --binary HEAD > '{WORK}/changed'; [ ! -s '{WORK}/changed' ] || git -C '{CLONE}' apply '{WORK}/changed'")
    for name in ("bin", "lib"):
        shutil.copytree(ROOT / name, CLONE / name, symlinks=True, ignore=shutil.ignore_patterns("hkrep-unproved"))
    (CLONE / "new").write_text("new\n", encoding="utf-8")
    run(["git", "add", "new"], cwd=CLONE)
    return changed


def released():
    """The steps of the page, up to the packages."""
    said, status = cloned()
    if status or not (CLONE / "deploy" / "package").exists():
        report("a clone of this repository", [said or "deploy/package isn't committed"])
        return False
    report("docs/RELEASE.md: the number, the proof, the packages and the tag", typed(steps("The number") + steps("The proof") + steps("The packages") + steps("The tag")))
    return DEB.exists()


def the_same():
    """A second build, with other names for what might go into it."""
    again = WORK / "again"
    said, status = run(f"umask 077 && exec '{CLONE}/deploy/package' '{again}'", cwd=WORK, env={"TZ": "Asia/Tokyo", "HOME": str(WORK), "USER": "else", "LC_ALL": "C"})
    files = [(it.name, (again / it.name).read_bytes() == it.read_bytes() if (again / it.name).exists() else False, True) for it in sorted((CLONE / "dist").iterdir())]
    report(f"{len(files)} files of two builds are the same", ([said] if status else []) + differ(files) + ([] if len(files) == 5 else ["not five files"]))


def numbers():
    """The places of the version number, and that one command sets all."""
    places = runpy.run_path(str(ROOT / "deploy" / "version"))["PLACES"]
    said, _ = run([ROOT / "deploy" / "version"])
    found = [(line.split(" ")[1], line.split(" ")[0], VERSION) for line in said.splitlines()]
    deb, _ = run(["dpkg-deb", "-f", DEB, "Version"])
    pc = re.search(r"^Version: (.*)$", (ROOT / "lib" / "hekaton.pc").read_text(encoding="utf-8"), re.M)[1]
    found += [("hkrep --version", told(ROOT / "bin" / "hkrep", "--version").split(" ")[1], VERSION), ("the Debian package", deb.strip(), VERSION), ("hekaton.pc", pc, VERSION)]
    replaced = runpy.run_path(str(ROOT / "tests" / "tools" / "plain_build.py"))["WORDS"]
    found += [("places", len(said.splitlines()), len(places))]
    found += [(f"where {name} without a proof says so", (ROOT / name).read_text(encoding="utf-8").count(old), 1) for name, words in replaced.items() for old in words]
    other = WORK / "numbered"
    for name in [*(it[0] for it in places), "deploy/version"]:
        (other / name).parent.mkdir(parents=True, exist_ok=True)
        shutil.copy(ROOT / name, other / name)
    said, status = run([other / "deploy" / "version", "10.2.30"])
    changed = [(name, "10.2.30" in (other / name).read_text(encoding="utf-8"), True) for name, _, _ in places]
    report("one version number", differ(found + changed) + ([said] if status else []))


def as_root():
    """The words before a command that has to be root's, or None where there is no way."""
    if os.geteuid() == 0:
        return []
    words = ["unshare", "--map-root-user"]
    return words if shutil.which("unshare") and run([*words, "true"])[1] == 0 else None


def libraries(file):
    return re.findall(r"(/\S+) \(0x", run(["ldd", file])[0])


def bare():
    """A root with a shell and the C library, where dpkg knows that the library is there."""
    sh = pathlib.Path("/bin/dash") if pathlib.Path("/bin/dash").exists() else pathlib.Path("/bin/sh")
    for file in {str(sh), *libraries(sh), *libraries(ROOT / "bin" / "hkrep")}:
        to = BARE / ("bin/sh" if file == str(sh) else file.lstrip("/"))
        to.parent.mkdir(parents=True, exist_ok=True)
        shutil.copy(file, to)
    known = BARE / "var" / "lib" / "dpkg"
    for it in (known / "info", known / "updates", BARE / "dev"):
        it.mkdir(parents=True)
    (BARE / "dev" / "null").touch()
    version, _ = run(["dpkg-query", "-W", "-f", "${Version}", "libc6:amd64"])
    (known / "status").write_text("Package: libc6\nStatus: install ok installed\nArchitecture: amd64\nMulti-Arch: same\nMaintainer: none\n"
                                  f"Version: {version}\nDescription: the library that is there\n\n", encoding="utf-8")
    (known / "info" / "libc6:amd64.list").touch()


def dpkg(root, *words):
    path = {"PATH": f"{os.environ['PATH']}:/usr/sbin:/sbin"}
    return run([*root, "dpkg", f"--root={BARE}", "--log=/dev/null", *words], env=path)


def inside(root, lines):
    """What a shell in the root prints to standard output, and its status."""
    command = [*root, *(["chroot"] if os.geteuid() else [shutil.which("chroot") or "/usr/sbin/chroot"]), BARE, "/bin/sh", "-c", lines]
    return run(command, env={"PATH": "/usr/bin:/bin:/usr/sbin:/sbin"}, is_output_alone=True)


def in_a_bare_root():
    """The page's try, from `dpkg -i` to the answer of a node; then the unit's node; then the package goes, and leaves nothing."""
    root = as_root()
    if root is None or not shutil.which("dpkg"):
        skip("no root of its own can be made here: the package is taken apart, and not installed")
        run(["dpkg-deb", "-x", DEB, BARE])
        return
    bare()
    lines = steps("A try, as a new user")
    said, status = dpkg(root, "-i", DEB)
    report("the Debian package is installed in a bare root", [said] if status or "error" in said else [])
    first = [line for line in lines if not re.match(r"dpkg |tar |vadungsil-|cd vad|make |rm ", line)]
    report("docs/RELEASE.md: from nothing but the package to a node's answer", answered(root, first))
    two = of("package.py two commands")
    report("README.md: from nothing but the package to a node's answer in two commands", answered(root, [f"{two[1].text}  # {two[1].printed}"])
           + ([] if len(two) == 2 and two[0].text == "dpkg -i vadungsil_*_amd64.deb" else [str(two)]))
    unit(root)
    said, status = dpkg(root, "--purge", "vadungsil")
    left = [str(it.relative_to(BARE)) for it in BARE.rglob("*") if re.search("hkrep|hekaton|vadungsil", it.name) and "var/lib/dpkg" not in str(it)]
    report("the package goes, and leaves nothing", ([said] if status else []) + left)


def answered(root, lines):
    """What is wrong with lines that are typed in the root, one of which starts a node that stays: examples/node tells on standard error which."""
    port, wanted = str(free_port()), [it for line in lines for it in re.findall(r"# (.*)$", line)]
    text = "\n".join(re.sub(r" *#.*$", "", line) for line in lines).replace("7428", port)
    text = re.sub(r"^(\S*examples/node)$", rf'\1 {port} 2> /said; while read -r word node _; do [ "$word" = node ] && break; done < /said', text, flags=re.M)
    said, status = inside(root, f"{text}\nkill $node")
    return differ([("prints", said.splitlines(), wanted), ("status", status, 0)])


UNITS = ("hkrep@.service", "hkrep-save@.service", "hkrep-save@.timer")


def unit(root):
    """The node as the units start, save and stop it, by their command lines with their settings; then it begins with what was saved."""
    of_units = {name: (BARE / "usr/lib/systemd/system" / name).read_text(encoding="utf-8") for name in UNITS}
    port = str(free_port())

    def command(name, field):
        line = re.search(rf"^{field}=-?(.*)$", of_units[name], re.M)[1]
        return line.replace("%i", port).replace("%S", "").replace("$$", "$")

    settings = command(UNITS[0], "EnvironmentFile")
    start = f". {settings}; {command(UNITS[0], 'ExecStart')} > /dev/null & node=$!\nexport MAINPID=$node\n{command(UNITS[0], 'ExecStartPost')} > /dev/null\n"
    kept_down = re.search(r"^RestartPreventExitStatus=(.*)$", of_units[UNITS[0]], re.M)
    (BARE / "hkrep").mkdir()
    lines = f"{start}hkrep feed --port {port} < /{SHARED}/examples/first.bin; hkrep ask --port {port} get 1 5\n" \
            f"printf '\\0\\0\\0\\2\\2\\60' | hkrep push --messages 2 --port {port}; {command(UNITS[1], 'ExecStart')} && kill -9 $node; wait $node\n" \
            f"{start}hkrep ask --port {port} get 1 5; {command(UNITS[0], 'ExecStop')}; kill $node; wait $node\n{start}hkrep front --port {port}; kill $node"
    said, _ = inside(root, lines)
    saved = sorted(it.name for it in (BARE / "hkrep").iterdir())
    shutil.rmtree(BARE / "hkrep")
    # the last is Streams, a request of version 2, which the calls of docs/PYTHON.md need
    told = "streams log 7 horizon 0 readable 1 operations 2\nstream 1 prefix 1 extra 0 closed 1 waiting 0\n"
    report("the units' command lines start a node that answers, also messages of version 2, and save it; then it comes back with what it had",
           differ([("prints", said, f"done 2\n9 41\n{told}9 41\nfront horizon 0 readable 1\n"), ("saved", saved, [f"{port}.save", f"{port}.save.1"]),
                   ("what isn't begun again", kept_down and kept_down[1], "1"), ("both files", re.findall(r"--load \S+%i\.save(\S*)", of_units[UNITS[0]]), ["", ".1"])]))


def is_due():
    """The timer's service saves where the last save is as old as SAVE_MINUTES of the settings has it, or where there is none."""
    text = (ROOT / "deploy" / UNITS[1]).read_text(encoding="utf-8")
    condition = re.search(r"^ExecCondition=(.*)$", text, re.M)[1].replace("$$", "$").replace("%S", str(WORK)).replace("%i", "due")
    file, pairs = WORK / "hkrep" / "due.save", []
    file.parent.mkdir(exist_ok=True)
    for minutes, age, wanted in (("1", None, 0), ("1", 0, 1), ("1", 61, 0), ("5", 61, 1), ("5", 301, 0)):
        if age is not None:
            file.touch()
            os.utime(file, (time.time() - age,) * 2)
        done = subprocess.run(["sh", "-c", f"exec {condition}"], env={**os.environ, "SAVE_MINUTES": minutes}, timeout=30, check=False)
        pairs.append((f"{minutes} minutes, saved {age} seconds ago", done.returncode, wanted))
    report("a save is due by SAVE_MINUTES", differ(pairs))


def listed(deb, to, manifest):
    """Takes a package apart; what is wrong with its MANIFEST."""
    said, status = run(["dpkg-deb", "-x", deb, to])
    lines = (to / manifest).read_text(encoding="utf-8").splitlines()
    sums, sum_status = run(["sha256sum", "--quiet", "-c", manifest], cwd=to)
    commit, _ = run(["git", "rev-parse", "HEAD"], cwd=CLONE)
    kit = re.search(r"\((.*)\)", told(ROOT / "bin" / "hkrep", "--version"))[1]
    files = {str(it.relative_to(to)) for it in to.rglob("*")
             if it.is_file() and not it.is_symlink() and not any(up.is_symlink() for up in it.parents)}
    named = {line.split("  ")[1] for line in lines if not line.startswith("#")}
    return ([said] if status else []) + ([sums] if sum_status else []) + differ(
        [("commit", lines[1], f"# commit {commit.strip()}"), ("kit", lines[2], f"# kit {kit}"),
         ("files", sorted(files - named), [manifest])])


def by_policy():
    """lintian finds no error in the Debian packages, whose maintainer is given as they are made. An override says why the program
    has the names of its functions in it: it is the file that was proved."""
    if not shutil.which("lintian"):
        skip("lintian is not installed: nothing looks whether the Debian packages are as Debian wants them")
        return
    place = WORK / "named"
    said, status = run([CLONE / "deploy" / "package", place], env={"MAINTAINER": MAINTAINER})
    found, _ = run(["lintian", "--allow-root", "--fail-on", "none", *sorted(place.glob("*.deb"))])
    errors = [line for line in found.splitlines() if not line.startswith(("W: ", "I: ", "P: ", "N: ", "O: "))]
    fields = [(it.name, run(["dpkg-deb", "-f", it, "Maintainer"])[0].strip(), MAINTAINER) for it in place.glob("*.deb")]
    report("lintian finds no error in the Debian packages", ([said] if status else []) + errors + differ(fields)
           + ([] if len(fields) == 2 else ["not two packages"]) + ([] if "nobody" not in said and "no address" not in said else [said]))


def taken_apart():
    """The packages' files, for the checks that need no root."""
    whole, apart = WORK / "whole", WORK / "apart"
    report("MANIFEST names the commit, the kit and the sum of each file",
           listed(DEB, whole, f"{SHARED}/MANIFEST") + listed(DEVELOPMENT, apart, "usr/share/doc/libhekaton-dev/MANIFEST"))
    lib = "usr/lib/x86_64-linux-gnu"
    same = [("bin/hkrep", whole / "usr/bin/hkrep"), ("lib/libhekaton.so", whole / lib / "libhekaton.so.0"),
            ("lib/libhekaton.a", apart / lib / "libhekaton.a"), ("include/hekaton.h", apart / "usr/include/hekaton.h")]
    report("the program and the library are those that were proved", [name for name, file in same if (ROOT / name).read_bytes() != file.read_bytes()])
    said, status = run([sys.executable, whole / "usr/bin/vadungsil", "--version"], env={"PYTHONPATH": ""})
    report("the package's Python client", differ([("vadungsil --version", (said.strip(), status), (f"vadungsil {VERSION}", 0))]))
    return whole


def from_the_tar():
    report("docs/RELEASE.md: the tar, and make install", typed([line for line in steps("A try, as a new user") if re.match(r"tar |vadungsil-|cd vad|make |rm ", line)]))


def words_of(text):
    return re.findall(r"\w+", text.lower())


def plain(page):
    """The words of a page without roff's."""
    text = "\n".join(line for line in page.splitlines() if not re.match(r"\.(TP|PP|nf|fi|RS|RE|nh)", line))
    for sign, letter in (("\\-", "-"), ("\\(aq", "'"), ("\\(ga", "`"), ("\\(ha", "^"), ("\\(ti", "~"), ("\\fB", ""), ("\\fI", ""), ("\\fR", ""), ("\\&", ""), ("\\e", "\\")):
        text = text.replace(sign, letter)
    return words_of(text)


def manual(whole, of):
    """The pages parse without a warning, there is one of each command, and no word of the help is missing."""
    pages = {it.name.removesuffix(".1.gz"): gzip.decompress(it.read_bytes()).decode() for it in sorted((whole / "usr/share/man/man1").glob("*.gz"))}
    wanted = ["hkrep", *(f"hkrep-{it.words[0]}" for it in of.below)]
    problems = differ([("pages", sorted(pages), sorted(wanted))])
    for it in [of, *of.below]:
        page = plain(pages.get("-".join(["hkrep", *it.words]), ""))
        missing = [word for word in words_of(" ".join([*it.before, *it.behind, *(f"{e.name} {e.said}" for of_one in it.lists.values() for e in of_one if e.name != "help")])) if word not in page]
        problems += [f"{it.name()}: {missing[:5]} aren't in its page"] if missing else []
    report(f"{len(pages)} manual pages, with each word of the help", problems)
    files = []
    for name, text in pages.items():
        files.append(WORK / f"{name}.1")
        files[-1].write_text(text, encoding="utf-8")
    tools = [["groff", "-man", "-ww", "-z", "-Tutf8"], ["mandoc", "-T", "lint", "-W", "warning"]]
    found = [tool for tool in tools if shutil.which(tool[0])]
    for tool in found:
        said, _ = run([*tool, *files])
        report(f"{tool[0]} reads the manual pages without a warning", said.splitlines())
    if not found:
        skip("neither groff nor mandoc is installed: the manual pages are not parsed")


BASH = """source "$1"
ask() { COMP_WORDS=(hkrep "$@"); COMP_CWORD=$#; _hkrep; echo "${COMPREPLY[@]}"; }
"""


def completions(whole, of):
    """bash completes each command, each option and each query; the other shells read theirs, where they are."""
    asked, wanted = ["''"], [[it.words[0] for it in of.below] + ["help", "--help", "--version"]]
    for it in of.below:
        valued = {flag: option.value() for option in it.lists["Options"] for flag in option.flags() if flag.startswith("--")}
        behind = [*(entry.name for entry in it.lists["Commands"]), *valued]
        asked += [f"{it.words[0]} --", f"help {it.words[0]}", *(f"{it.words[0]} {flag} ''" for flag in valued)]
        wanted += [[*valued], [it.words[0]], *([] if value else behind for value in valued.values())]
        for query in it.below:
            asked.append(f"ask {query.words[-1]}")
            wanted.append([query.words[-1]])
    script = WORK / "complete.bash"
    script.write_text(BASH + "\n".join(f"ask {it}" for it in asked) + "\n", encoding="utf-8")
    said, _ = run(["bash", "--norc", script, whole / "usr/share/bash-completion/completions/hkrep"])
    got = [line.split() for line in said.splitlines()]
    report(f"bash completes {len(asked)} command lines", differ([("lines", len(got), len(wanted)), *((f"hkrep {a}", sorted(g), sorted(w)) for a, g, w in zip(asked, got, wanted) if "--help ''" not in a)]))
    for shell, words, file in (("zsh", ["-n"], "zsh/vendor-completions/_hkrep"), ("fish", ["--no-execute"], "fish/vendor_completions.d/hkrep.fish")):
        if shutil.which(shell):
            report(f"{shell} reads its completions", [said for said, status in [run([shell, *words, whole / "usr/share" / file])] if status or said])
        else:
            skip(f"{shell} is not installed: nothing reads its completions", needed=False)


PROGRAM = """#include <hekaton.h>
#include <stdio.h>
int main(int count, char **words) {
    static uint8_t items[4096], body[4096];
    hk_handle replica = HK_CLOSED;
    hk_found row;
    FILE *file = fopen(words[count - 1], "rb");
    size_t len = file ? fread(items, 1, sizeof items, file) : 0;
    if (hk_open(&replica, 7, 1) || hk_absorb(&replica, items, len) || hk_get(&replica, 1, 1, 5, &row, body, sizeof body) || !row.row) return 1;
    printf("%s: tag %u body %02x\\n", HEKATON_VERSION, (unsigned)row.tag, body[0]);
    hk_close(&replica);
    return 0;
}
"""


def over_c():
    """`make install` with DESTDIR, and a program in C that pkg-config finds the library for."""
    place = WORK / "destdir"
    line = sorted({it.text for it in of("package.py installed")})
    said, status = run(f"{line[0]} -s DESTDIR='{place}'", cwd=ROOT)
    lib = place / "usr" / "local" / "lib"
    report("make install, as the pages have it, puts all below DESTDIR", ([said] if status or len(line) > 1 else []) + [
        it for it in ("bin/hkrep", "lib/libhekaton.so", "include/hekaton.h", "share/man/man1/hkrep.1") if not (lib.parent / it).exists()]
        + [str(it) for it in place.iterdir() if it.name != "usr"])
    if not shutil.which("gcc") or not shutil.which("pkg-config"):
        skip("gcc or pkg-config is not installed: no program is made over what was installed")
        return
    (WORK / "program.c").write_text(PROGRAM, encoding="utf-8")
    env = {"PKG_CONFIG_LIBDIR": str(lib / "pkgconfig"), "PKG_CONFIG_SYSROOT_DIR": str(place), "LD_LIBRARY_PATH": str(lib)}
    said, status = run(f"cc -std=c99 -Wall -Wextra -Werror program.c $(pkg-config --cflags --libs hekaton) -o program && ./program '{ROOT}/examples/first.bin' && pkg-config --modversion hekaton", cwd=WORK, env=env)
    report("a program in C over what was installed", differ([("prints", (said, status), (f"{VERSION}: tag 9 body 41\n{VERSION}\n", 0))]))


def systemd(whole):
    """systemd reads the units, where it is."""
    if not shutil.which("systemd-analyze"):
        skip("systemd is not installed: nothing reads the units", needed=False)
        return
    copies = WORK / "units"
    copies.mkdir()
    for name in UNITS:
        text = (whole / "usr/lib/systemd/system" / name).read_text(encoding="utf-8").replace("/usr/bin/hkrep", str(whole / "usr/bin/hkrep"))
        (copies / name.replace("@", "@7420")).write_text(text, encoding="utf-8")
    said, _ = run(["systemd-analyze", "verify", "--man=no", *sorted(copies.iterdir())])
    report("systemd reads the units", [line for line in said.splitlines() if "hkrep" in line])


def unproved():
    """A program that says it is unproved, or that has another number, isn't packed."""
    other = WORK / "other"
    shutil.copytree(CLONE, other, symlinks=True, ignore=shutil.ignore_patterns("crates", "dist", ".git", "tests"))
    problems = []
    for says in (f"hkrep {VERSION} unproved, built without a proof (rattle-kit)", "hkrep 99.0.0 (rattle-kit)"):
        (other / "bin" / "hkrep").write_text(f"#!/bin/sh\necho '{says}'\n", encoding="utf-8")
        for command in ("deploy/package", "deploy/install --destdir root"):
            said, status = run(command, cwd=other)
            problems += [] if status and says in said and not (other / "root").exists() else [f"{command} of {says}: status {status}: {said[-200:]}"]
    report("what says it is unproved, or of another version, isn't handed on", problems)


def main():
    if not is_built(ROOT / "bin" / "hkrep"):
        return ended()
    if not (ROOT / "lib" / "libhekaton.so").exists():
        report("the library", ["lib/ is not built"])
        return ended()
    if not shutil.which("dpkg-deb") or not (ROOT / ".git").exists():
        skip("no dpkg-deb, or no clone of git: no packages are made")
        return ended()
    try:
        begun = time.monotonic()
        if released():
            of = helped(ROOT / "bin" / "hkrep")
            the_same()
            numbers()
            in_a_bare_root()
            whole = taken_apart()
            by_policy()
            from_the_tar()
            manual(whole, of)
            completions(whole, of)
            systemd(whole)
            is_due()
            over_c()
            unproved()
        print(f"{time.monotonic() - begun:.0f} seconds")
    finally:
        shutil.rmtree(WORK, ignore_errors=True)
    return ended()


if __name__ == "__main__":
    sys.exit(main())
