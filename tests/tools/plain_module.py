#!/usr/bin/env python3
"""Makes of the module that `rt try` compiles (LLVM's text) about the one that a proved build has: without the compiler's checks, and with what the
sources say of inlining, which `rt try` leaves out.

plain_module.py IN OUT FOLDER..     FOLDER: each a folder of crates, CRATE/src/**/*.rt"""
import pathlib
import re
import sys

HINTS = {"#[inline(always)]": "alwaysinline", "#[inline]": "inlinehint", "#[inline(never)]": "noinline"}
IMPL = re.compile(r"^impl\b(.*)$")
FUNCTION = re.compile(r"\bfn\s+(\w+)")
DEFINED = re.compile(r'^define [^@]*@"([^"]+)"')
# a function of the library for C: in a program that crates/hk_c was made to be, it has the crate's name before its own, and isn't seen outside
EXPORT = re.compile(r'@"hk_c::(hk_\w+)"')
NAMED = re.compile(r"(?:&(?:'\w+\s+)?(?:mut\s+)?)?(?:\w+::)*(\w+)")


def without_parameters(head):
    """What stands behind the type parameters of an impl."""
    head = head.strip()
    if not head.startswith("<"):
        return head
    depth = 0
    for at, letter in enumerate(head):
        depth += (letter == "<") - (letter == ">" and head[at - 1] != "-")
        if depth == 0:
            return head[at + 1:]
    return head


def name_in(text):
    found = NAMED.match(text.strip())
    return found[1] if found else ""


def holders_of(head):
    """The names that a function of an impl may have in the module before its own: those of the type, with that of the trait."""
    words = re.split(r"\s+for\s+", without_parameters(head), maxsplit=1)
    kind = name_in(words[-1])
    if len(words) == 1:
        return [kind]
    return [kind + name_in(words[0]), f"{kind}+{name_in(words[0])}"]


def module_of(file, crate):
    """The module that a file is."""
    if file.stem == "mod":
        return file.parent.name
    return crate if file.stem in ("lib", "main") else file.stem


def hints_of(file, crate):
    """Each hint of a file: ((crate, type or module, function), the word of the module for it)."""
    holders, hint = [module_of(file, crate)], None
    for line in file.read_text(encoding="utf-8", errors="replace").splitlines():
        text = line.strip()
        if found := IMPL.match(line):
            holders, hint = holders_of(found[1]), None
        elif line.startswith("}"):
            holders = [module_of(file, crate)]
        if text in HINTS:
            hint = HINTS[text]
        elif hint and not text.startswith("//") and (found := FUNCTION.search(text)):
            yield from (((crate, holder, found[1]), hint) for holder in holders)
            hint = None


def all_hints(folders):
    found = {}
    for folder in folders:
        for file in sorted(pathlib.Path(folder).glob("*/src/**/*.rt")):
            found.update(hints_of(file, file.relative_to(folder).parts[0]))
    return found


def hint_of(hints, name):
    """What the sources say of a function of the module."""
    words = name.split("::<")[0].split("::")
    if len(words) < 2:
        return None
    crate, holder, function = words[0], words[-2], words[-1]
    return hints.get((crate, holder, function)) or hints.get((crate, holder.split("+")[0], function))


def is_check(line):
    """Whether a line is a call of the compiler's checks, or fills fresh memory for them."""
    if "call void " not in line:
        return False
    return '@"rattle-llvm-checks::' in line or "@llvm.trap()" in line or ("@llvm.memset" in line and "i8 -86" in line)


def plain(line, hints):
    """A line without what the checks need, and with a hint where it begins a function that has one."""
    if line.startswith("define"):
        found = DEFINED.match(line)
        hint = hint_of(hints, found[1]) if found else None
        if hint:
            at = line.rindex(") #")
            return f"{line[:at + 1]} {hint} {line[at + 2:]}"
    elif line.startswith("attributes"):
        line = line.replace("sanitize_address", "nounwind").replace('"frame-pointer"="all"', "")
        return line.replace('"target-cpu"="x86-64"', '"target-cpu"="x86-64-v2"')
    return line


def exported(line):
    """A line with the functions of the library for C under their own names, seen outside where it begins one."""
    named = EXPORT.sub(r"@\1", line)
    return named.replace("define internal", "define", 1) if named != line else line


def main(source, target, *folders):
    hints = all_hints(folders)
    with open(source, encoding="utf-8", errors="surrogateescape") as lines, open(target, "w", encoding="utf-8", errors="surrogateescape") as out:
        for line in lines:
            if not (line.startswith("  ") and is_check(line)):
                out.write(exported(plain(line, hints)))


main(*sys.argv[1:])
