"""What makes a program or the library for C without a proof (tests/tools/quick, tests/tools/library --unproved): the crates are copied, and in the
copy alone some words say that they are unproved. `rt try` compiles them with the compiler's checks of memory. So it is run from a folder of links
that looks like the toolchain, in which the compiler and the linker are scripts of ours: one takes the checks out (plain_module.py) and optimises
as for a proved program, the other leaves the checks' library out. Both keep what they made. Nothing of the toolchain is changed. Standard library
only."""
import os
import pathlib
import shutil
import subprocess
import sys

ROOT = pathlib.Path(__file__).resolve().parents[2]
VERSION = (ROOT / "VERSION").read_text(encoding="utf-8").strip()
# the lines that say what is made, and what they say in the copy
WORDS = {
    "crates/hk_cli_calls/src/version.rt": {f'"{VERSION} (': f'"{VERSION} unproved, built without a proof (', "IS_PROVED: bool = true": "IS_PROVED: bool = false"},
    "crates/hk_c/src/lib.rt": {f'b"{VERSION}\\0"': f'b"{VERSION} unproved\\0"'},
}
# how long the whole may take, on a machine that does much else
SECONDS = 1200

COMPILER = """#!/bin/bash
# The toolchain's compiler; a module that `rt try` compiles is made plain first, and optimised.
clang=@KIT@/toolchain/bin/clang
PATH=/usr/local/bin:/usr/bin:/bin
case " $* " in *" -fsanitize=address "*) ;; *) exec "$clang" "$@" ;; esac
"$clang" --no-default-config -S -emit-llvm -Xclang -disable-llvm-passes -x ir module.bc -o module_text.ll --target=x86_64-unknown-linux-gnu || exit 1
"@PYTHON@" "@HERE@/plain_module.py" module_text.ll module_plain.ll "@KIT@/rattle" "@CRATES@" || exit 1
words=()
for word in "$@"; do
    case $word in -fsanitize=address|-O0) ;; -fPIE) words+=(@CODE@) ;; module.bc) words+=(module_plain.ll) ;; *) words+=("$word") ;; esac
done
"$clang" "${words[@]}" -O3 -Xclang -fmerge-functions -mllvm -mergefunc-use-aliases -Wno-override-module && cp module.o "@OUT@.o"
"""

LINKER = """#!/bin/bash
# The toolchain's linker; a program is linked without the checks' library, and kept.
PATH=/usr/local/bin:/usr/bin:/bin
case " $* " in *" --whole-archive "*) ;; *) exec @KIT@/toolchain/bin/ld.lld "$@" ;; esac
words=() is_library=0
for word in "$@"; do
    case $word in
        --whole-archive) is_library=1 ;;
        --no-whole-archive) is_library=0 ;;
        *) [ $is_library = 1 ] || words+=("$word") ;;
    esac
done
@KIT@/toolchain/bin/ld.lld "${words[@]}" && cp program "@OUT@"
"""

PROVER = """#!/bin/bash
# The toolchain's prover; a question that only makes messages nicer isn't answered.
case " $* " in *" --start "*) exit 1 ;; esac
exec @KIT@/bin/rattle "$@"
"""

SCRIPTS = {"toolchain/bin/clang": COMPILER, "toolchain/bin/ld.lld": LINKER, "bin/rattle": PROVER}


def copied(work):
    """The crates but those of tests, with the words that say that they are unproved."""
    for name in ("crates.txt", "HANDLES"):
        shutil.copy(ROOT / name, work)
    shutil.copytree(ROOT / "crates", work / "crates", ignore=shutil.ignore_patterns("out", "must-fail"))
    for name, words in WORDS.items():
        for old, new in words.items():
            replaced(work / name, old, new)


def replaced(file, old, new):
    """Puts other words in the place of some that a file has once."""
    text = file.read_text(encoding="utf-8")
    if text.count(old) != 1:
        sys.exit(f"{file} has {old!r} {text.count(old)} times, not once")
    file.write_text(text.replace(old, new), encoding="utf-8")


def toolchain_of(rt):
    """The toolchain's folder, or None where it isn't as it was."""
    kit = pathlib.Path(rt).resolve().parent.parent
    needed = [*SCRIPTS, "bin/rt", "bin/rtlib.py", "rattle"]
    return kit if all((kit / name).exists() for name in needed) else None


def linked(kit, to, values):
    """A folder of links to the toolchain's entries, with scripts of ours for three of them, and copies of rt, which finds the toolchain by
    its own place."""
    own = {*SCRIPTS, "bin", "toolchain", "toolchain/bin"}
    for folder in ("", "bin", "toolchain", "toolchain/bin"):
        (to / folder).mkdir()
        for entry in (kit / folder).iterdir():
            name = f"{folder}/{entry.name}".lstrip("/")
            if name in ("bin/rt", "bin/rtlib.py"):
                shutil.copy(entry, to / name)
            elif name not in own:
                (to / name).symlink_to(entry)
    for name, text in SCRIPTS.items():
        for word, value in values.items():
            text = text.replace(word, str(value))
        (to / name).write_text(text, encoding="utf-8")
        (to / name).chmod(0o755)


def tried(kit, folder, work, crate, *words, code="-fPIE"):
    """Makes a program of the copied crates, optimised and without checks: where it stands, its object beside it, or None where the toolchain makes it
    otherwise. Sources that don't compile end it."""
    to, out = folder / "toolchain", folder / "program"
    linked(kit, to, {"@KIT@": kit, "@CRATES@": work / "crates", "@OUT@": out, "@HERE@": ROOT / "tests" / "tools", "@PYTHON@": sys.executable, "@CODE@": code})
    said = subprocess.run([to / "bin/rt", "try", "--seconds", "10", *words], cwd=work / "crates" / crate, env={**os.environ, "TMPDIR": str(folder)},
                          stdin=subprocess.DEVNULL, stdout=subprocess.PIPE, stderr=subprocess.STDOUT, timeout=SECONDS)
    if said.returncode == 1:
        sys.exit(said.stdout.decode(errors="replace")[-3000:] + "rt try built no program")
    return out if out.exists() else None
