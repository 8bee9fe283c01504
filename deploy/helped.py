"""What `hkrep --help` and `hkrep help COMMAND` say, taken apart: of this the manual pages and the completions are made, so that each text
is written once. Standard library only."""
import functools
import re
import subprocess

HEADS = ("Usage", "Commands", "Arguments", "Options")


class Entry:
    """A line of a list: a command, an argument or an option, and what is said of it."""

    def __init__(self, name, said):
        self.name, self.said = name, said

    def flags(self):
        """The option's words, as --log."""
        return re.findall(r"--?[a-z][a-z-]*", self.name.lower()) if self.name.startswith("-") else []

    def value(self):
        """What stands for its value, if it has one."""
        found = re.search(r"<(\w+)>", self.name)
        return found[1] if found else None


class Help:
    """The help of the program, or of one of its commands: its words behind `hkrep`, what is said before the usage and behind the options, the
    usage, and the three lists; and the helps of its own commands."""

    def __init__(self, words, text):
        self.words, self.usage, self.below = words, "", []
        self.lists = {name: [] for name in HEADS[1:]}
        self.before, self.behind = [], []
        part = "before"
        for line in text.splitlines():
            head = re.match(rf"({'|'.join(HEADS)}):\s*(.*)$", line)
            if head and part != "behind":
                part = head[1]
                self.usage = head[2] if part == "Usage" else self.usage
                continue
            if part in self.lists and line and not line.startswith(" "):
                part = "behind"
            if part in self.lists:
                self.add(self.lists[part], line)
            elif part != "Usage":
                (self.before if part == "before" else self.behind).append(line)

    def add(self, place, line):
        """A line of a list: an entry has at most six blanks before it, and more where what is said of it goes on."""
        entry = re.match(r" {2,6}(\S.*?)(?: {2,}(\S.*))?$", line)
        if entry:
            place.append(Entry(entry[1], entry[2] or ""))
        elif line.strip() and place:
            place[-1].said = f"{place[-1].said} {line.strip()}".strip()

    def name(self):
        return " ".join(["hkrep", *self.words])

    def about(self):
        """The first line."""
        return self.before[0].rstrip(".")


@functools.lru_cache(maxsize=None)
def told(program, *words):
    """What the program prints, under its own name wherever it stands."""
    done = subprocess.run(["hkrep", *words], executable=str(program), stdin=subprocess.DEVNULL, capture_output=True, text=True, timeout=60, check=False)
    if done.returncode or not done.stdout:
        raise SystemExit(f"{program} {' '.join(words)}: status {done.returncode}: {done.stderr[:300]}")
    return done.stdout


def helped(program, words=()):
    """The help behind these words, with those below it."""
    found = Help(list(words), told(program, "help", *words) if words else told(program, "--help"))
    found.below = [helped(program, [*words, it.name]) for it in found.lists["Commands"] if it.name != "help"]
    return found
