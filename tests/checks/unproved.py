#!/usr/bin/env python3
"""Checks what works in a clone after `make quick` and `make quick-lib` alone: `make install`, `make package`, demonstrations, the program under the name
of the pages; that each of them says that it is unproved; and that where no program is there each ends with a line and no traceback.

The program of `make quick` is stood in for by one that says so and runs bin/hkrep, the library of `make quick-lib` by one that says so alone. Of how that
is made, what goes into the compiler is looked at. Prints a line for each check and ends with 'N passed, M failed'. Standard library only."""
import importlib.machinery
import importlib.util
import pathlib
import re
import shutil
import subprocess
import sys
import tempfile
import time

sys.dont_write_bytecode = True
sys.path += [str(pathlib.Path(__file__).resolve().parents[1] / it) for it in ("lib", "tools")]
from checks import differ, ended, guarded, is_built, report, skip  # noqa: E402

ROOT = pathlib.Path(__file__).resolve().parents[2]
PROGRAM = ROOT / "bin" / "hkrep"
WORK = pathlib.Path(tempfile.mkdtemp(prefix="unproved"))
CLONE, PLACE = WORK / "clone", WORK / "root"
VERSION = (ROOT / "VERSION").read_text(encoding="utf-8").strip()
LIMIT = 120
STAND_IN = """#!/bin/sh
[ "$1" = --version ] && echo "hkrep {version} unproved, built without a proof (stood in for)" && exit
exec {program} "$@"
"""
# what a clone without any program ends with, and which programs end so
NOTHING = r"is(n't| not) there: make"
# a library that only says what it is
LIBRARY = """#include <stddef.h>
#include <string.h>
static const char text[] = "{version}";
size_t hk_version(unsigned char *out, size_t room) {{ memcpy(out, text, room < sizeof text ? room : sizeof text); return sizeof text; }}
"""
# the stand-in as a packager needs it
STAND_IN_C = """#include <stdio.h>
#include <string.h>
#include <unistd.h>
int main(int count, char **words) {{
    if (count > 1 && !strcmp(words[1], "--version")) return puts("hkrep {version} unproved, built without a proof (stood in for)") < 0;
    return execv("{program}", words);
}}
"""
# lines of a module before and behind plain_module.py: functions of the library are seen under their own names, checks are gone
MODULE = (('define internal noundef i8 @"hk_c::hk_open"(ptr noundef %a0) #0 {', "define noundef i8 @hk_open(ptr noundef %a0) #0 {"), ('  call void @"rattle-llvm-checks::read"(ptr %a0)', None),
          ('  call void @"hk_c::hk_close"(ptr %a0)', "  call void @hk_close(ptr %a0)"), ("}", "}"), ('define internal void @"hk_c::words::line_of"(ptr noundef %a0) #0 {', ...), ("}", "}"))
NEEDS = (["deploy/install", "--destdir", str(PLACE)], ["deploy/package", str(WORK / "packed")], ["examples/links/look.py", "--seconds", "1"], ["examples/links/two_feeders.py"],
         ["connectors/redis/demo"])


def run(*words, **more):
    done = subprocess.run([str(word) for word in words], stdout=subprocess.PIPE, stderr=subprocess.STDOUT, text=True, timeout=LIMIT, check=False, cwd=CLONE, **more)
    return done.stdout, done.returncode


def cloned():
    """This commit with what is changed beside it, and nothing built."""
    subprocess.run(["git", "clone", "-q", "--shared", str(ROOT), str(CLONE)], check=True)
    changed = subprocess.run(["git", "-C", str(ROOT), "diff", "--binary", "HEAD"], stdout=subprocess.PIPE, check=True).stdout
    if changed:
        subprocess.run(["git", "-C", str(CLONE), "apply"], input=changed, check=True)


def with_nothing():
    """Without a program each says how to make one."""
    pairs = []
    for words in NEEDS:
        said, status = run(sys.executable if words[0].endswith(".py") or words[0].startswith("deploy") else "/usr/bin/python3", *words)
        pairs += [(f"{words[0]}: {said[-300:]}", (status != 0, bool(re.search(NOTHING, said)), "Traceback" in said, "quick" in said), (True, True, False, True))]
    report("without a program each ends with a line", differ(pairs))


def stood_in():
    (CLONE / "bin").mkdir()
    program = CLONE / "bin" / "hkrep-unproved"
    program.write_text(STAND_IN.format(version=VERSION, program=PROGRAM), encoding="utf-8")
    program.chmod(0o755)


def installed():
    """`make install` takes it under the name hkrep, and says wherever a version is shown that it is unproved."""
    said, status = run("make", "install", "PREFIX=/usr/local", f"DESTDIR={PLACE}")
    program = PLACE / "usr" / "local" / "bin" / "hkrep"
    shown = subprocess.run([str(program), "--version"], stdout=subprocess.PIPE, text=True, timeout=LIMIT, check=False).stdout
    page = (PLACE / "usr" / "local" / "share" / "man" / "man1" / "hkrep.1").read_text(encoding="utf-8")
    report("make install without a proof", differ([("status", (status, "UNPROVED, built without a proof" in said, "without the library for C" in said), (0, True, True)), ("--version", "unproved" in shown, True),
                                                   ("the manual page", f"{VERSION} unproved" in page, True)]) + ([said] if status else []))


def library_tool():
    """tests/tools/library as a module."""
    loader = importlib.machinery.SourceFileLoader("library", str(ROOT / "tests" / "tools" / "library"))
    module = importlib.util.module_from_spec(importlib.util.spec_from_loader("library", loader))
    loader.exec_module(module)
    return module


def before_the_compiler():
    """What `make quick-lib` gives to the compiler: a program that names each function of the header, in a copy that says it is unproved."""
    library, copy = library_tool(), WORK / "copy"
    copy.mkdir()
    library.copied(copy)
    library.as_program(copy)
    source = copy / "crates" / "hk_c" / "src"
    text = (source / "main.rt").read_text(encoding="utf-8")
    named = re.findall(r"^ +let _ = (\w+)\(any\(\)", text, re.M)
    (WORK / "in.ll").write_text("".join(f"{before}\n" for before, _ in MODULE), encoding="utf-8")
    said, status = run(sys.executable, ROOT / "tests" / "tools" / "plain_module.py", WORK / "in.ll", WORK / "out.ll")
    wanted = [before if behind is ... else behind for before, behind in MODULE if behind is not None]
    report("what the library without a proof is made of", differ([
        ("functions", sorted(named), sorted(library.exports())), ("how many", len(named) >= 17, True), ("its version", f'b"{VERSION} unproved\\0"' in text, True), ("no library", (source / "lib.rt").exists(), False),
        ("crates.txt", "staticlib" in (copy / "crates.txt").read_text(encoding="utf-8"), False), ("plain_module.py", (said, status), ("", 0)),
        ("the module", (WORK / "out.ll").read_text(encoding="utf-8").splitlines(), wanted)]))


def library_of(version, described):
    """A library in the clone that says it is of this version, with its hekaton.pc."""
    lib, source = CLONE / "lib", WORK / "library.c"
    lib.mkdir(exist_ok=True)
    source.write_text(LIBRARY.format(version=version), encoding="utf-8")
    run("cc", "-fPIC", "-c", source, "-o", WORK / "library.o")
    run("ar", "rcs", lib / "libhekaton.a", WORK / "library.o")
    said, status = run("cc", "-shared", "-o", lib / "libhekaton.so", WORK / "library.o")
    (lib / "hekaton.pc").write_text(described, encoding="utf-8")
    return [said] if status else []


def with_library():
    """With the library of `make quick-lib` `make install` and `make package` take it, and say so; beside a proved program, and in the place of a proved
    library, it isn't taken."""
    if not shutil.which("cc") or not shutil.which("dpkg-deb"):
        skip("cc or dpkg-deb is not installed: no library without a proof is installed")
        return
    library = library_tool()
    (WORK / "program.c").write_text(STAND_IN_C.format(version=VERSION, program=PROGRAM), encoding="utf-8")
    said, status = run("cc", WORK / "program.c", "-o", CLONE / "bin" / "hkrep-unproved")
    problems = ([said] if status else []) + library_of(f"{VERSION} unproved", library.described(library.UNPROVED))
    said, status = run("make", "install", "PREFIX=/usr/local", f"DESTDIR={PLACE}")
    there = [(PLACE / "usr/local" / it).exists() for it in ("lib/libhekaton.a", "lib/libhekaton.so.0", "include/hekaton.h")]
    pc = (PLACE / "usr/local/lib/pkgconfig/hekaton.pc").read_text(encoding="utf-8")
    problems += differ([("make install", (status, "the library for C is UNPROVED" in said, there), (0, True, [True] * 3)),
                        ("hekaton.pc", (f"\nVersion: {VERSION}+unproved\n" in pc, "UNPROVED" in pc.split("Description: ")[1].splitlines()[0]), (True, True))])
    said, status = run("deploy/package", WORK / "dist")
    names = sorted(it.name for it in (WORK / "dist").glob("*.deb"))
    shown = [run("dpkg-deb", "-f", WORK / "dist" / name, "Description")[0].startswith("UNPROVED") for name in names]
    problems += differ([(f"make package: {said[-300:]}", (status, names, shown), (0, [f"{it}_{VERSION}_amd64.deb" for it in ("libhekaton-unproved-dev", "vadungsil-unproved")], [True, True]))])
    proved = CLONE / "bin" / "hkrep"
    proved.write_text(f'#!/bin/sh\n[ "$1" = --version ] && echo "hkrep {VERSION} (stood in for)" && exit\nexec {PROGRAM} "$@"\n', encoding="utf-8")
    proved.chmod(0o755)
    for words in (["deploy/install", "--destdir", WORK / "other"], ["deploy/package", WORK / "other"]):
        said, status = run(*words)
        problems += differ([(f"{words[0]} beside a proved program: {said[-200:]}", (status, "beside a program that is proved" in said, list((WORK / "other").glob("*"))), (1, True, []))])
    proved.unlink()
    problems += library_of(VERSION, library.described(library.PROVED))
    said, status = run("make", "quick-lib")
    problems += differ([(f"in the place of a proved one: {said[-200:]}", (status != 0, "lib/ has the proved library, and it stays" in said), (True, True))])
    report("the library without a proof is taken, said, and never in the place of a proved one", problems)


def demonstrations():
    """Demonstrations take it, and nothing is proved for them."""
    pairs = []
    for target in ("look", "serve-demo", "redis-demo", "nats-demo", "shop-demo"):
        said, status = run("make", "-n", target)
        pairs += [(target, (status, "tests/tools/build" in said, "tests/tools/quick" in said), (0, False, False))]
    begin = time.monotonic()
    said, status = run(sys.executable, "examples/links/look.py", "--seconds", "1", "--http", "127.0.0.1:0")
    pairs += [("look", (status, "Traceback" in said), (0, False)), ("within a minute", time.monotonic() - begin < 60, True)]
    report("demonstrations without a proof", differ(pairs))


def main():
    if not is_built(PROGRAM):
        return ended()
    if not (ROOT / ".git").exists():
        report("a clone", ["this is no clone of the repository"])
        return ended()
    try:
        cloned()
        guarded(with_nothing)
        stood_in()
        guarded(installed)
        guarded(before_the_compiler)
        guarded(with_library)
        guarded(demonstrations)
    finally:
        shutil.rmtree(WORK, ignore_errors=True)
    return ended()


if __name__ == "__main__":
    sys.exit(main())
