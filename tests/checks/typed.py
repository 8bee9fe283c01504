#!/usr/bin/env python3
"""The types of the Python package, by Debian's mypy at its strictest: the package itself, a program that uses it, and the
listings of the pages pass; and what nobody should write is refused, line by line. Nothing of it is run. Where mypy isn't
installed that is said as skipped. And what the wheel tells of itself.

Prints a line for each check and ends with 'N passed, M failed'. Standard library only."""
import email
import os
import pathlib
import re
import shutil
import subprocess
import sys
import tempfile
import zipfile

sys.path.append(str(pathlib.Path(__file__).resolve().parents[1] / "lib"))
from checks import differ, ended, report, skip
from shown import of

ROOT = pathlib.Path(__file__).resolve().parents[2]
PROGRAMS = ROOT / "tests" / "typed_programs"
PACKAGE = ROOT / "clients" / "python"
SECONDS = 300


def told_of(mypy, folder, *paths):
    """What is said of these files, and the status."""
    words = [mypy, "--strict", "--python-version", "3.9", "--cache-dir", folder / "cache", "--no-error-summary", *paths]
    done = subprocess.run([str(word) for word in words], cwd=folder, env={**os.environ, "MYPYPATH": str(PACKAGE)}, stdout=subprocess.PIPE,
                          stderr=subprocess.STDOUT, text=True, timeout=SECONDS, check=False)
    return done.stdout, done.returncode


def wrong_lines(mypy, folder):
    """The lines that are refused are those that say so."""
    path = PROGRAMS / "misuses.py"
    wanted = {number for number, line in enumerate(path.read_text(encoding="utf-8").splitlines(), 1) if "# refused: " in line}
    told, _ = told_of(mypy, folder, path)
    return differ([("the lines", {int(number) for number in re.findall(r"misuses\.py:(\d+): error: ", told)}, wanted),
                   ("enough of them", len(wanted) > 10, True)])


def listed(mypy, folder):
    """The listings of each page that has some in Python, each page as one program."""
    readme = re.findall("```python\n(.*?)```", (PACKAGE / "README.md").read_text(encoding="utf-8"), re.S)
    (folder / "package_page.py").write_text("\n".join(readme), encoding="utf-8")
    problems = differ([("the package's own page", (told_of(mypy, folder, folder / "package_page.py"), bool(readme)), (("", 0), True))])
    for page in sorted({it.page for it in of("pages.py pasted") if it.how == "python"}):
        path = folder / f"{pathlib.Path(page).stem}.py"
        path.write_text("\n".join(it.text for it in of("pages.py pasted") if it.page == page and it.how == "python"), encoding="utf-8")
        problems += differ([(page, told_of(mypy, folder, path), ("", 0))])
    return problems


def described():
    """What the wheel tells of itself: its licences, what it is for, that it is typed, and its page."""
    with tempfile.TemporaryDirectory() as folder:
        build = "import sys; sys.path.insert(0, '.'); import backend; print(backend.build_wheel(sys.argv[1]))"
        name = subprocess.run([sys.executable, "-B", "-c", build, folder], cwd=PACKAGE, stdout=subprocess.PIPE, text=True, check=True).stdout
        with zipfile.ZipFile(pathlib.Path(folder) / name.strip()) as wheel:
            files = {path.rpartition("/")[2]: wheel.read(path) for path in wheel.namelist()}
    told = email.message_from_bytes(files["METADATA"])
    classifiers = told.get_all("Classifier", [])
    return differ([("the licence", told["License"], "MIT OR Apache-2.0"), ("typed", "py.typed" in files, True),
                   *((name, files[name], (ROOT / name).read_bytes()) for name in told.get_all("License-File", ["none"])),
                   ("licences told", sorted(told.get_all("License-File", [])), ["LICENSE-APACHE", "LICENSE-MIT"]),
                   ("classified", {"Typing :: Typed", "License :: OSI Approved :: MIT License"} <= set(classifiers), True),
                   ("the page", (told["Description-Content-Type"], told.get_payload()),
                    ("text/markdown", (PACKAGE / "README.md").read_text(encoding="utf-8")))])


def main():
    report("what the wheel tells of itself", described())
    mypy = shutil.which("mypy")
    if not mypy:
        skip("mypy is not installed: the types of the Python package are not looked at")
        return ended()
    with tempfile.TemporaryDirectory() as name:
        folder = pathlib.Path(name)
        report("the package's own types", differ([("the package", told_of(mypy, folder, PACKAGE / "vadungsil"), ("", 0))]))
        report("a program that uses the package", differ([("the program", told_of(mypy, folder, PROGRAMS / "uses.py"), ("", 0))]))
        report("what a strict look at types refuses", wrong_lines(mypy, folder))
        report("the Python of the pages", listed(mypy, folder))
    return ended()


if __name__ == "__main__":
    sys.exit(main())
