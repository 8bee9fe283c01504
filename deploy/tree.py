"""What is installed, and where: the program, the library for C, the Python client, manual pages, completions, examples and the unit.
`make install` and `make package` both lay out this. Standard library only."""
import io
import os
import pathlib
import re
import subprocess
import sys
import tempfile
import zipfile

ROOT = pathlib.Path(__file__).resolve().parent.parent
sys.path[:0] = [str(ROOT / "deploy"), str(ROOT / "clients" / "python")]
import backend  # noqa: E402
import completions  # noqa: E402
import manual  # noqa: E402
from helped import helped, told  # noqa: E402

VERSION = (ROOT / "VERSION").read_text(encoding="utf-8").strip()
# where the shells look in a Debian system, and where they look below another prefix
ZSH = {"/usr": "share/zsh/vendor-completions"}
COMMAND = """#!{python}
import pathlib
import sys

sys.path.append(str(pathlib.Path(__file__).resolve().parent / "{place}"))
from vadungsil.__main__ import main

sys.exit(main())
"""
SHARED = ("examples", "connectors")
UNITS = ("hkrep@.service", "hkrep-save@.service", "hkrep-save@.timer")
PAGES = (".md", ".svg", ".png", ".json")


def git(*words):
    """What git says, also to root of another's clone, or nothing where this is none."""
    if not (ROOT / ".git").exists():
        return ""
    done = subprocess.run(["git", "-c", "safe.directory=*", *words], cwd=ROOT, capture_output=True, text=True, check=False)
    if done.returncode:
        sys.exit(f"git {' '.join(words)}: {done.stderr.strip()}")
    return done.stdout.strip()


def seconds():
    """The time that all files get: that of the commit, or the one that is asked for."""
    asked = os.environ.get("SOURCE_DATE_EPOCH") or git("log", "-1", "--format=%ct")
    return int(asked) if asked else int((ROOT / "VERSION").stat().st_mtime)


def commit():
    """The commit, and whether there is more than it."""
    name = git("rev-parse", "HEAD") or "unknown"
    return f"{name}, with changes that are not committed" if git("status", "--porcelain", "--untracked-files=no") else name


class Tree:
    """Files and links by their paths below the root, of one prefix."""

    def __init__(self, prefix, libdir="", sysconfdir="", pythondir=""):
        self.prefix, self.libdir, self.pythondir = prefix, libdir or f"{prefix}/lib", pythondir or f"{prefix}/lib/python3/dist-packages"
        self.sysconfdir = sysconfdir or ("/etc" if prefix == "/usr" else f"{prefix}/etc")
        self.files, self.links, self.settings = {}, {}, []

    def add(self, path, data, mode=0o644):
        self.files[path.lstrip("/")] = (data.encode() if isinstance(data, str) else data, mode)

    def copy(self, path, source, mode=None):
        self.add(path, source.read_bytes(), mode or (0o755 if os.access(source, os.X_OK) else 0o644))

    def link(self, path, target):
        self.links[path.lstrip("/")] = target

    def folder(self, path, source, suffixes=None):
        """All of a folder, but for what Python keeps there."""
        for it in sorted(source.rglob("*")):
            if it.is_file() and "__pycache__" not in it.parts and (suffixes is None or it.suffix in suffixes):
                self.copy(f"{path}/{it.relative_to(source)}", it)

    def write(self, top):
        """Writes all below a folder. Settings that are there already stay."""
        for path, (data, mode) in self.files.items():
            file = top / path
            file.parent.mkdir(parents=True, exist_ok=True)
            if path not in self.settings or not file.exists():
                file.unlink(missing_ok=True)
                file.write_bytes(data)
                file.chmod(mode)
        for path, target in self.links.items():
            file = top / path
            file.parent.mkdir(parents=True, exist_ok=True)
            file.unlink(missing_ok=True)
            file.symlink_to(target)


def program_here():
    """The program that is handed on: the proved one, else the one of `make quick`. What stands in the place of the proved one has to be proved."""
    proved, unproved = ROOT / "bin" / "hkrep", ROOT / "bin" / "hkrep-unproved"
    if proved.exists() and is_unproved(proved):
        sys.exit(f"{proved} says {told(proved, '--version').strip()!r}, and stands where make puts one that is proved")
    found = [it for it in (proved, unproved) if it.exists()]
    return found[0] if found else wanted(proved, "make, or make quick without proofs,")


def wanted(path, made_by):
    if not path.exists():
        sys.exit(f"{path} is not there: {made_by} makes it")
    return path


def has_library(program, lib):
    """Whether the library for C goes too: always beside a proved program, and then it is proved; beside one without proofs where it is there."""
    if not is_unproved(program) and is_unproved_library(lib):
        sys.exit(f"{lib} has the library of make quick-lib, without a proof, beside a program that is proved: make lib makes the proved one")
    return not is_unproved(program) or (lib / "libhekaton.so").exists()


def is_unproved_library(lib):
    """Whether a folder has a library for C that says of itself, by hk_version, that it is unproved."""
    files = [it for it in (lib / "libhekaton.a", lib / "libhekaton.so") if it.exists()]
    return any(f"{VERSION} unproved\0".encode() in it.read_bytes() for it in files)


def in_c(tree, lib):
    """The library for C."""
    for name, made in (("libhekaton.a", "libhekaton.a"), ("libhekaton.so", "libhekaton.so.0")):
        tree.copy(f"{tree.libdir}/{made}", wanted(lib / name, "make lib"), 0o644)
    tree.link(f"{tree.libdir}/libhekaton.so", "libhekaton.so.0")
    pc = wanted(lib / "hekaton.pc", "make lib").read_text(encoding="utf-8")
    pc = re.sub(r"^prefix=.*", f"prefix={tree.prefix}", pc, flags=re.M)
    below = tree.libdir.removeprefix(tree.prefix)
    tree.add(f"{tree.libdir}/pkgconfig/hekaton.pc", re.sub(r"^libdir=.*", "libdir=${prefix}" + below, pc, flags=re.M))
    tree.copy(f"{tree.prefix}/include/hekaton.h", ROOT / "include" / "hekaton.h")


def in_python(tree, python):
    """The Python client, as its wheel has it, and its command, which finds it wherever both were put."""
    with tempfile.TemporaryDirectory() as folder:
        data = (pathlib.Path(folder) / backend.build_wheel(folder)).read_bytes()
    with zipfile.ZipFile(io.BytesIO(data)) as wheel:
        for name in sorted(wheel.namelist()):
            if not name.endswith("/RECORD"):     # so that pip leaves alone what it didn't install
                tree.add(f"{tree.pythondir}/{name}", wheel.read(name))
    tree.add(f"{tree.prefix}/bin/vadungsil", COMMAND.format(python=python, place=os.path.relpath(tree.pythondir, f"{tree.prefix}/bin")), 0o755)


def of_shells(tree, program):
    """The manual pages and completions, from the program's help."""
    whole = helped(program)
    files = [(f"{tree.prefix}/share/vadungsil", "examples and docs: the commands of these pages can be typed there as they stand"),
             (f"{tree.sysconfdir}/default/hkrep", "what the unit hkrep@PORT starts a node with")]
    for name, text in manual.pages(program, whole, f"{VERSION} unproved" if is_unproved(program) else VERSION, seconds(), files).items():
        tree.add(f"{tree.prefix}/share/man/man1/{name}", text)
    places = {"hkrep": "share/bash-completion/completions", "_hkrep": ZSH.get(tree.prefix, "share/zsh/site-functions"),
              "hkrep.fish": "share/fish/vendor_completions.d"}
    for name, text in completions.completions(whole).items():
        tree.add(f"{tree.prefix}/{places[name]}/{name}", text)


def of_system(tree):
    """The units of a node and of its saves, and their settings."""
    settings = f"{tree.sysconfdir}/default/hkrep"
    for name in UNITS:
        unit = (ROOT / "deploy" / name).read_text(encoding="utf-8")
        tree.add(f"{tree.prefix}/lib/systemd/system/{name}", unit.replace("@BIN@", f"{tree.prefix}/bin").replace("@SETTINGS@", settings))
    tree.copy(settings, ROOT / "deploy" / "hkrep.default", 0o644)
    tree.settings.append(settings.lstrip("/"))


def of_pages(tree):
    """The pages and the examples. Below share/vadungsil all stands as in a clone, so that the commands of the pages can be typed there."""
    shared, pages = f"{tree.prefix}/share/vadungsil", f"{tree.prefix}/share/doc/vadungsil"
    for name in SHARED:
        tree.folder(f"{shared}/{name}", ROOT / name)
    for name in ("grafana", "prometheus", "stunnel"):
        tree.folder(f"{shared}/deploy/{name}", ROOT / "deploy" / name)
    tree.link(f"{shared}/bin", "../../bin")
    tree.link(f"{shared}/docs", "../doc/vadungsil/docs")
    tree.link(f"{pages}/examples", "../../vadungsil/examples")
    tree.folder(f"{pages}/docs", ROOT / "docs", PAGES)
    for name in ("README.md", "CHANGELOG.md", "LICENSE-MIT", "LICENSE-APACHE"):
        if (ROOT / name).exists():
            tree.copy(f"{pages}/{name}", ROOT / name)


def read_version(program):
    """What the program says it is: whether it is unproved, and its kit."""
    said = told(program, "--version").strip()
    found = re.fullmatch(rf"hkrep {re.escape(VERSION)}( unproved, built without a proof)? \((.*)\)", said)
    if not found:
        sys.exit(f"{program} says {said!r}, and not that it is version {VERSION}")
    return found[1] is not None, found[2]


def is_unproved(program):
    return read_version(program)[0]


def kit_of(program):
    """The kit that the program was built with, and whether it was proved."""
    unproved, kit = read_version(program)
    return f"{kit}, UNPROVED: built without a proof" if unproved else kit


def filled(tree, python="/usr/bin/env python3", program=None, lib=ROOT / "lib"):
    """The tree with all of it."""
    program = program or program_here()
    tree.copy(f"{tree.prefix}/bin/hkrep", program, 0o755)
    if has_library(program, lib):
        in_c(tree, lib)
    in_python(tree, python)
    of_shells(tree, program)
    of_system(tree)
    of_pages(tree)
    return tree
