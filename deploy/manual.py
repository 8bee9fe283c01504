"""The manual pages, in roff's man(7), from what the program says itself: hkrep.1 and one of each command."""
import textwrap
import time

from helped import told

HEADINGS = {"Arguments": "ARGUMENTS", "Options": "OPTIONS", "Commands": "COMMANDS"}


def escaped(text):
    """Words of a text, with nothing in them that roff would take for its own."""
    text = text.replace("\\", "\\e").replace("-", "\\-").replace("'", "\\(aq").replace("`", "\\(ga").replace("^", "\\(ha").replace("~", "\\(ti")
    return f"\\&{text}" if text.startswith(".") else text


def flowing(text):
    """A text that flows, in lines of a length that can be read in the source too."""
    return [escaped(line) for line in textwrap.wrap(text, 72, break_long_words=False, break_on_hyphens=False)]


def paragraphs(lines):
    """A text: lines with two blanks before them stand as they are, the others flow."""
    out, verbatim = [], False
    for line in lines:
        is_verbatim = line.startswith("  ")
        if is_verbatim != verbatim:
            out += [".PP", ".RS 2", ".nf"] if is_verbatim else [".fi", ".RE"]
            verbatim = is_verbatim
            out += [] if is_verbatim else [".PP"]
        if not line.strip():
            out += [".PP"] if out and out[-1] != ".PP" else []
        else:
            out += [escaped(line[2:])] if is_verbatim else flowing(line)
    out += [".fi", ".RE"] if verbatim else []
    while out and out[0] == ".PP":
        out.pop(0)
    while out and out[-1] == ".PP":
        out.pop()
    return out


def listed(entries):
    return [line for it in entries for line in (".TP", f"\\fB{escaped(it.name)}\\fR", *flowing(it.said))]


def text_of(help_):
    """What is said behind the options: what comes before an example, and the examples."""
    lines = help_.behind
    at = next((n for n, line in enumerate(lines) if line.startswith("Example")), len(lines))
    out = [".SH NOTES", *paragraphs(lines[:at])] if any(line.strip() for line in lines[:at]) else []
    if at < len(lines):
        first = lines[at].removeprefix("Example").lstrip(":, ").strip()
        out += [".SH EXAMPLE", *paragraphs([*([first[:1].upper() + first[1:]] if first else []), *lines[at + 1:]])]
    return out


def queries(help_):
    """The commands of a command, each with what it takes."""
    out = []
    for it in help_.below:
        usage = it.usage.removeprefix("hkrep ").removeprefix(" ".join(it.words[:-1])).strip()
        out += [f".SS {escaped(usage)}", *paragraphs(it.before), *listed(it.lists["Arguments"])]
    return [".SH QUERIES", *out] if out else []


def refusals(program):
    """The numbers of the refusals, as `hkrep explain` tells them."""
    out = [".SH REFUSALS"]
    for line in told(program, "explain").splitlines():
        number, _, said = line.strip().partition(" ")
        out += [".TP", f"\\fB{escaped(number)}\\fR", *flowing(said)]
    return out


def places(files):
    """The files that whoever runs the program may look for."""
    return [".SH FILES", *(line for path, said in files for line in (".TP", f"\\fI{escaped(path)}\\fR", *flowing(said)))]


def page(help_, version, seconds, more, others):
    """A page: its name, and its lines."""
    name = "-".join(["hkrep", *help_.words])
    about = help_.about()
    out = [f'.TH {name.upper()} 1 {time.strftime("%Y-%m-%d", time.gmtime(seconds))} "Vadungsil {version}" "Vadungsil"',
           ".nh", ".SH NAME", f"{escaped(name)} \\- {escaped(about[:1].lower() + about[1:])}", ".SH SYNOPSIS", f"\\fB{escaped(help_.usage)}\\fR",
           ".SH DESCRIPTION", *paragraphs(help_.before)]
    for head in ("Arguments", "Options") if help_.words else ("Commands", "Options"):
        out += [f".SH {HEADINGS[head]}", *listed(help_.lists[head])] if help_.lists[head] else []
    out += [*(queries(help_) if help_.words else []), *text_of(help_), *more]
    out += [".SH SEE ALSO", ",\n".join(f".BR {escaped(it)} (1)" for it in others)]
    return f"{name}.1", "\n".join(out) + "\n"


def pages(program, whole, version, seconds, files):
    """All pages by their names; `files` are paths with a word on each."""
    names = ["-".join(["hkrep", *it.words]) for it in whole.below]
    made = [page(whole, version, seconds, [*refusals(program), *places(files)], names)]
    return dict(made + [page(it, version, seconds, [], ["hkrep"]) for it in whole.below])
