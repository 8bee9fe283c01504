"""What the pages show for a reader to type or to look at, and which check does it: each listing, each line that is set in, each command inside
a sentence. A check asks for what is its own (`of`), so what stands here is what is typed; tests/checks/pages.py sees that nothing is left over. Standard
library only."""
import pathlib
import re
from typing import NamedTuple

ROOT = pathlib.Path(__file__).resolve().parents[2]
PAGES = [*sorted(ROOT.glob("*.md")), *sorted((ROOT / "docs").glob("*.md")), *sorted((ROOT / "docs" / "measures").glob("*.md")), ROOT / "bench" / "README.md", ROOT / "uses" / "README.md",
         *sorted((ROOT / "examples").glob("**/*.md"))]

# what a command in a sentence begins with, beside the path of a file that can be run
TOOLS = ("hkrep", "make", "rt", "dpkg", "pip", "apt-get", "python3", "git", "systemctl", "redis-cli", "debootstrap", "curl")
FOLDERS = ("bin", "bench", "tests", "docs", "deploy", "connectors", "examples")

# the folders beside crates/ that have a page for who changes what is in them, as each crate has
BESIDE = ("clients", "connectors", "deploy", "tests")
PAGES += [*sorted((ROOT / "crates").glob("*/README.md")), *(ROOT / it / "README.md" for it in BESIDE)]


class Shown(NamedTuple):
    """Something that a page shows: the page, how (the language of a listing, `set in` or `said`), what, and what has to be printed."""
    page: str
    how: str
    text: str
    printed: str


# which check types what: the page, how it is shown, what it begins with or has in it, and the check; the first row that fits
ROWS = (
    ("docs/ARCHITECTURE.md", "listing", "", "pages.py crates"),
    ("docs/CONTRIBUTING.md", "antt|rust|listing", "", "pages.py listings"),
    ("uses/README.md", "rust|python", "", "pages.py listings"),
    ("docs/GETTING_STARTED.md", "sh|text", "", "pages.py pasted"),
    ("docs/GETTING_STARTED.md", "listing", "hkrep", "pages.py commands"),
    ("docs/EMBEDDING.md", "c|cpp|rust|python|go", "", "c_library.py listings"),
    ("docs/EMBEDDING.md", "set in", r"(\w+=(\".*?\"|\S+) )*(cc|g\+\+|cargo|go|python3|\./\w+)", "c_library.py commands"),
    ("docs/EMBEDDING.md|README.md", ".*", "make install", "package.py installed"),
    ("README.md", "set in", "dpkg -i |/usr/share/vadungsil/examples/node", "package.py two commands"),
    ("docs/RELEASE.md", "set in", "", "package.py released"),
    ("docs/RELEASE.md|README.md", "said", "dpkg -i|make package", "package.py released"),
    ("README.md", "set in", "export PATH=", "pages.py pasted"),
    ("docs/PYTHON.md|README.md", "python|text", "", "pages.py pasted"),
    ("docs/PYTHON.md", "set in", "python3 -m vadungsil ", "pages.py pasted"),
    ("docs/LOOKING.md", "set in", "curl|python3", "web.py commands"),
    (".*", "said", r"python3 -m vadungsil\.web --", "web.py commands"),
    ("docs/CONNECTORS.md", "set in", r"primary -->| +\\->", "pages.py drawn"),
    ("docs/CONNECTORS.md", "conf", "accounts", "engine.py rights"),
    ("docs/CONNECTORS.md", "conf", "server_name", "engine.py servers"),
    ("docs/CONNECTORS.md", "set in", "connectors/nats", "engine.py typed"),
    ("docs/CONNECTORS.md", "set in", "ACL", "connectors.py secured"),
    ("docs/CONNECTORS.md", ".*", "connectors/redis|redis-cli", "connectors.py typed"),
    (".*", "said|set in", "make redis-demo", "connectors.py demonstrated"),
    (".*", "said|set in", "make nats-demo", "engine.py demonstrated"),
    (".*", "said|set in", "make shop-demo", "postgres.py demonstrated"),
    ("docs/POSTGRESQL.md", "sh|python|text", "", "postgres.py page"),
    ("docs/OPERATING.md", "set in", r"deploy/stunnel/authority |stunnel |.*(tls://|--read-port 7421|--port 7424)", "tunnel.py typed"),
    ("docs/FORMATS.md", "set in", "00000024 02 7f", "saved.py frame"),
    ("docs/FORMATS.md|docs/PROTOCOL.md", "set in", " *[0-9a-f]{4}", "pages.py bytes"),
    ("docs/PROTOCOL.md", "set in", " +[0-9a-f]{2}", "pages.py bytes"),
    ("docs/FORMATS.md", "set in", "", "pages.py words"),
    (".*", "said", r"hkrep [a-z]+( --messages 2| --(?!help)[a-z-]+)*$|python3 -m vadungsil\.\w+$", "pages.py names"),
    (".*", "said|set in", r"(bin/)?hkrep .*( \.\.|L$)", "pages.py names"),
    (".*", "said|set in", "(bin/)?hkrep ", "pages.py typed"),
    ("uses/README.md", "said", "examples/links/ask.py", "pages.py asked node"),
    (".*", "said|set in|listing", "(NEED_ALL=1 )?make( |$)", "pages.py made"),
    (".*", "said|set in", "rt ", "pages.py toolchain"),
    (".*", "said|set in", "(pip|apt-get) install", "pages.py packages"),
    ("docs/CONTRIBUTING.md", "said", "git show", "pages.py history"),
    (".*", "said", r"bench/(links|measures|guard|parts|run|python|postgres|connectors\.py|fanout\.py|c_library)", "benches.py benches"),
    (".*", "said|set in", r"(python3 )?(tests|docs|examples|deploy|bench|connectors)/", "pages.py scripts"),
)


def is_command(text):
    """Whether what stands in a sentence is a command: a tool with words behind it, or a file of the tree that can be run."""
    words = re.sub(r"^(\w+=\S+ )+", "", text).split()
    if words[0] in TOOLS or words[0].startswith("bin/"):
        return len(words) > 1 or words[0] == "make"
    file = ROOT / words[0]
    return words[0].split("/")[0] in FOLDERS and file.is_file() and bool(file.stat().st_mode & 0o111)


def parts(page):
    """What one page shows, in its order but listings first."""
    name, text = str(page.relative_to(ROOT)), page.read_text(encoding="utf-8")
    for language, block in re.findall(r"^```(\w*)\n(.*?)^```$", text, re.M | re.S):
        yield Shown(name, language or "listing", block, "")
    text = re.sub(r"^```.*?^```$", "", text, flags=re.M | re.S)
    for line in re.findall(r"^    (.*\S)$", text, re.M):
        command, _, printed = line.partition("  # ")
        if not re.match(r" *[-*|] ", line):
            yield Shown(name, "set in", command.rstrip(), printed.strip())
    for command in re.findall(r"`([^`\n]+)`", text):
        if is_command(command):
            yield Shown(name, "said", command, "")


def checker(it):
    """The check that types it, or None."""
    for page, how, start, check in ROWS:
        if re.fullmatch(page, it.page) and re.fullmatch(how, it.how) and re.match(start, it.text):
            return check
    return None


def all_shown():
    return [it for page in PAGES for it in parts(page)]


def of(check):
    """What a check has to type or look at."""
    found = [it for it in all_shown() if checker(it) == check]
    if not found:
        raise LookupError(f"no page shows anything for {check}")
    return found
