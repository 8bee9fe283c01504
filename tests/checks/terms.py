#!/usr/bin/env python3
"""Checks that what is read uses the field's words: each of TERMS is a pattern that no text may meet, with the word to write in its place.

Looks at the pages (README.md, docs, bench/README.md, uses/README.md, examples, clients, each crate's README.md and CALLING.md), the comments of
documentation in crates/*/src, what the program says (string literals of hk_cli_arguments, hk_cli_reasons and hkrep), what the web page
shows, the string literals of clients/python and connectors (docstrings, --help and errors, also of programs without a suffix), and the
comments of deploy/hkrep.default. Exempt are code: `spans`, listings, indented lines; the sentence that states the headline; of
docs/GLOSSARY.md the column with our own word; CHANGELOG.md, which is history; and a literal that is one name. Prints each place, and at the
end 'N passed, M failed'.

    terms.py            all
    terms.py PATH..     what stands in these files or folders
"""

import ast
import html.parser
import json
import pathlib
import re
import subprocess
import sys

ROOT = pathlib.Path(__file__).resolve().parents[2]
PAGES, COMMENTS, TEXTS, WEB, PYTHON, SETTINGS = "pages", "comments", "texts", "web", "python", "settings"
ALL = (PAGES, COMMENTS, TEXTS, WEB, PYTHON, SETTINGS)
READ = (PAGES, TEXTS, WEB, PYTHON, SETTINGS)

# what follows a word that is a noun here: the end of what is said, or a word that goes on from it
AFTER = (r"(?=[.,;:)|]|$| (?:of|is|was|has|had|in|on|to|from|into|by|for|with|at|as|and|or|since|again|that|which|may|can|comes|came|goes|went|would"
         r"|will|may|stands?|below|above|between|are|were|it|than|but|while|where|when|after|before|without)\b)")

# a pattern, the word to write in its place, and the texts that it is looked for in; case counts only where a pattern says so
TERMS = (
    # what can be read
    (r"readable marks?", "resolved time", ALL),
    (r"\b(?:above|below|at|up to|past|behind) the mark that is named", "the resolved time that is named", ALL),
    (r"\bhorizons?\b", "oldest readable time (`horizon` where it is a line, a field or a definition)", READ),
    (r"from where to where can be read", "the range of readable times", ALL),
    # snapshots and their chunks
    (r"\bwholes\b", "snapshots", ALL),
    (r"\b(?:a|an|another|each|every|this|that|one|no|its|their|of|the|node's|replica's|first|same)(?: such)? whole\b(?<!as a whole)(?<!on the whole)" + AFTER,
     "snapshot, full snapshot (or `all of`)", ALL),
    (r"\bin parts\b|\bpart by part\b", "in chunks, chunk by chunk", READ),
    (r"\bparts? of (?:a|the|each|that|one|its|this) (?:whole|fragment|delta|snapshot)", "chunk of a snapshot", READ),
    # connections and slots
    (r"(?<!symbolic )(?<!hard )\blinks?\b(?! (?:with|against|it with|them with|statically|to (?:the (?:page|file|library)|this moment)))(?! of (?:a|each|the) page)",
     "connection (`--links` and `link 3: ..` are code)", READ),
    (r"\b(?:links?|connections?) that only reads?\b", "read-only connection", ALL),
    (r"\bplaces? (?:of|for) (?:a|the|its|each|every|all|other)? ?(?:links?|connections?|seats?|readers?)\b|\b(?:its|their|all|free|every|whose|no) places?"
     r" (?:is|are|was|were) (?:taken|free|given|lost|held)", "connection slot", ALL),
    (r"\bnodes? that stays?\b", "long-running node", ALL),
    # pinned times
    (r"(?<!take )(?<!take a )\b(?:a|another|each|every|no|least|first|last|whose|that|one|the) hold\b(?! of the)|\bholds (?:of|on) (?:a |its )?times?\b"
     r"|\bholds times\b|\bhold (?:a|its|that|the) time\b|\bholds (?:a|its|that|the) time\b", "pinned time, pin", READ),
    # a node that has failed
    (r"\bdamag(?:ed?|es|ing)\b", "failed; fail a node (of a file: corrupt)", ALL),
    (r"\bcontradict\w*", "conflicts, conflict", ALL),
    # what is answered
    (r"\b(?:is|are|was|were|be|been|being|gets?|it|who|which|that) told\b(?! apart)", "returns N, gets error N, is reported", ALL),
    (r"\btold\b(?! apart)", "returned, reported, sent, printed", ALL),
    (r"\btell(?:s|ing)?\b(?! (?:\w+ )?apart)", "returns, reports, prints", ALL),
    (r"\bis no news\b|\bno news\b", "is ignored without being compared", ALL),
    (r"\bfaults? of form\b", "malformed request, malformed input", ALL),
    (r"\bmend(?:s|ed|ing)?\b", "fix", ALL),
    # the life of memory and connections
    (r"\blet(?:s|ting)? go\b|\blet(?:s|ting)? (?:it|them|that|all|\w+s) go\b(?! on)", "frees, drops, discards", ALL),
    # numbers
    (r"\bin the middle\b|\bmiddle of (?:[0-9]|a hundred)|\b\d+(?:st|nd|rd|th) of (?:a|the|its|each) hundred", "median, p50, p99", ALL),
    (r"\bgood to an? (?:third|half|quarter|fifth|tenth)", "+/- 33 %, or what it is", ALL),
    (r"numbers? of 64 bits (?:are|is|as) (?:a )?texts?", "64-bit numbers are JSON strings", ALL),
    # commands
    (r"\bhave a node (?:forget|take|answer|learn)", "discard, copy (what the command does)", ALL),
    (r"forget what no one reads", "discard the versions that no read at TIME or later needs", ALL),
    (r"take what another one has learnt", "copy missing data from another node", ALL),
    (r"\blearns?\b(?= (?:the |an? |each |all |what |its )?(?:items?|entr|marks?|facts?|version|fragment|delta))|\blearnt\b|\blearns\b",
     "applies, ingests, receives", ALL),
    (r"puts something before", "run a proxy such as stunnel", ALL),
    # the field
    (r"\bthe field(?:'s| calls)\b|\| ?Elsewhere ?\|", "the field's word itself", ALL),
)

# the sentence of the headline, which stays word for word
HEADLINE = "Replicas that took the same items of one primary's log"

SAYERS = ("hk_cli_arguments", "hk_cli_reasons", "hkrep")


def pages():
    found = [ROOT / "README.md", *(ROOT / "docs").glob("*.md"), ROOT / "bench" / "README.md", ROOT / "uses" / "README.md"]
    found += [*(ROOT / "examples").glob("**/*.md"), *(ROOT / "clients").glob("**/*.md"), *(ROOT / "connectors").glob("**/*.md")]
    found += [*(ROOT / "crates").glob("*/README.md"), *(ROOT / "crates").glob("*/CALLING.md")]
    return sorted(path for path in found if path.is_file())


def blank(text):
    """Spaces of the same length, so that what stands behind keeps its place."""
    return " " * len(text)


def without_code(line):
    """A line of a page without its code spans, the targets of its links, and the headline's sentence."""
    line = re.sub(r"``.*?``|`[^`]*`|\]\([^)]*\)|<[^>]*>|" + NAMES, lambda it: blank(it[0]), line)
    return re.sub(re.escape(HEADLINE) + r".*?\.(?= |$)", lambda it: blank(it[0]), line)


# a path, an option, and the name of a refusal in the table of their numbers
NAMES = r"(?<![\w])[\w.-]+/[\w./*-]*|(?<![\w-])--[a-z][a-z-]*|(?<=\| )[A-Z]\w+(?: \{\w+(?:, \w+)*\})?(?= \|)"


def without_own_word(line):
    """A row of the glossary without its second column, which has our own word."""
    cells = line.split("|")
    return "|".join([*cells[:2], blank(cells[2]), *cells[3:]]) if len(cells) > 4 else line


def of_page(path):
    """The lines of a page that are prose, each with its number."""
    fenced, listed = False, False
    for number, line in enumerate(path.read_text(encoding="utf-8").split("\n"), 1):
        if line.startswith("```"):
            fenced = not fenced
        is_item = re.match(r" *(?:[-*|]|\d+\.) ", line)
        listed = bool(is_item) or (listed and line.startswith(" "))
        if fenced or line.startswith("```") or (line.startswith("    ") and not listed):
            continue
        yield number, without_code(without_own_word(line) if path.name == "GLOSSARY.md" else line)


def of_comments(path):
    """The comments of documentation of a source, those that stand together joined, so that what is met may run over the end of a line."""
    block = []
    for number, line in enumerate([*path.read_text(encoding="utf-8").split("\n"), ""], 1):
        found = re.match(r"\s*//[/!] ?(.*)", line)
        if found:
            block.append((number, found[1]))
        elif block:
            yield block[0][0], without_code("\n".join(text for _, text in block))
            block = []


def said_in(literal):
    """What is said in a literal, or nothing where it is a name, a placeholder or an option alone. What stands in braces, in single quotes
    or set in is code, and a line that a node prints begins with a word that stays."""
    if not re.search(r"[a-z,:;] [a-z]", literal):
        return ""
    return without_code(re.sub(r"(?m)^  \S.*$|\$?\{[^{}]*\}|(?<!\w)'[^'\n]{1,80}'|^(?:link|horizon|readable|front horizon) [^:;]*", lambda it: blank(it[0]), literal))


def of_literals(path):
    """The string literals of a source in Rust or JavaScript, each with its line."""
    text, quotes = path.read_text(encoding="utf-8"), '"`' if path.suffix == ".js" else '"'
    kinds = [r"//[^\n]*", r"/\*.*?\*/", r"'(?:\\.|[^'\\\n])'", *(rf"{it}(?:\\.|[^{it}\\])*{it}" for it in quotes)]
    for found in re.finditer("|".join(kinds), text, re.S):
        if found[0][0] in quotes:
            yield text.count("\n", 0, found.start()) + 1, said_in(found[0][1:-1])


def of_python(path):
    """The string literals of a module, its documentation too, whose lines are read without what they are indented by."""
    for it in ast.walk(ast.parse(path.read_text(encoding="utf-8"))):
        if isinstance(it, ast.Constant) and isinstance(it.value, str):
            yield it.lineno, re.sub(r"\n[ \t]+", "\n", said_in(it.value))


def of_settings(path):
    """The comments of a file of settings, joined where they stand together."""
    lines = path.read_text(encoding="utf-8").split("\n")
    yield 1, without_code("\n".join(line[1:].lstrip() if line.startswith("#") else "" for line in lines))


class Visible(html.parser.HTMLParser):
    """The words of a page of HTML: its text, and what its attributes show."""

    def __init__(self):
        super().__init__()
        self.said = []

    def handle_starttag(self, tag, attrs):
        for name, value in attrs:
            if name in ("title", "placeholder", "aria-label", "alt") and value:
                self.said.append((self.getpos()[0], value))

    def handle_data(self, data):
        self.said.append((self.getpos()[0], data))


def of_html(path):
    reader = Visible()
    reader.feed(path.read_text(encoding="utf-8"))
    return reader.said


def of_openapi(path):
    """The descriptions and summaries of an interface, with the line of each."""
    text = path.read_text(encoding="utf-8")
    for found in re.finditer(r'"(?:description|summary|title)": ("(?:\\.|[^"\\])*")', text):
        yield text.count("\n", 0, found.start()) + 1, without_code(json.loads(found[1]))


def web_words():
    """What the web page shows."""
    client = ROOT / "clients" / "python" / "vadungsil"
    for path in sorted((client / "web").glob("*")):
        if path.suffix == ".html":
            yield path, of_html(path)
        elif path.suffix == ".json":
            yield path, of_openapi(path)
        elif path.suffix == ".js":
            yield path, of_literals(path)


def is_python(path):
    """Whether a file is a module, or a program without a suffix that Python runs."""
    return path.suffix == ".py" or (not path.suffix and "python3" in path.read_text(encoding="utf-8").split("\n")[0])


def python_words():
    """What the Python client and the connectors say, and what is said of them; the files are those that git knows."""
    listed = subprocess.run(["git", "ls-files", "clients/python", "connectors"], cwd=ROOT, stdout=subprocess.PIPE, text=True, check=True).stdout
    for path in (ROOT / name for name in listed.split()):
        if path.is_file() and is_python(path):
            yield path, of_python(path)


def texts():
    """Each kind of text, its file, and its pieces with their lines."""
    for path in pages():
        yield PAGES, path, of_page(path)
    for path in sorted((ROOT / "crates").glob("*/src/**/*.rt")):
        yield COMMENTS, path, of_comments(path)
    for crate in SAYERS:
        for path in sorted((ROOT / "crates" / crate / "src").glob("**/*.rt")):
            yield TEXTS, path, of_literals(path)
    for path, said in web_words():
        yield WEB, path, said
    for path, said in python_words():
        yield PYTHON, path, said
    settings = ROOT / "deploy" / "hkrep.default"
    yield SETTINGS, settings, of_settings(settings)


def faults(kind, pieces):
    """Where a text meets one of the patterns: the line, what was met, and what to write."""
    for number, text in pieces:
        met = []
        for pattern, word, kinds in TERMS:
            for found in re.finditer(pattern, text.replace("\n", " "), re.I) if kind in kinds else []:
                if not any(start < found.end() and found.start() < end for start, end in met):
                    met.append(found.span())
                    yield number + text.count("\n", 0, found.start()), " ".join(found[0].split()), word


def main():
    chosen = [pathlib.Path(word).resolve() for word in sys.argv[1:]]
    if any(not path.exists() for path in chosen):
        print("usage: tests/checks/terms.py [PATH..]", file=sys.stderr)
        return 2
    passed = failed = 0
    for kind, path, pieces in texts():
        if chosen and not any(it == path or it in path.parents for it in chosen):
            continue
        found = sorted(faults(kind, pieces))
        for number, text, word in found:
            print(f"FAILED {path.relative_to(ROOT)}:{number}: \"{text}\": {word}")
        failed += bool(found)
        passed += not found
    print(f"{passed} passed, {failed} failed")
    return 1 if failed else 0


if __name__ == "__main__":
    sys.exit(main())
