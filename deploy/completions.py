"""Completions for bash, zsh and fish, from what the program says itself."""

BASH = """# hkrep: the commands and their options, made from `hkrep --help`
_hkrep() {{
    local word=${{COMP_WORDS[COMP_CWORD]}} before=${{COMP_WORDS[COMP_CWORD-1]}} words=
    COMPREPLY=()
    case "${{COMP_WORDS[1]}} $before" in
        {valued}|*' <'|*' >') return ;;
    esac
    if [ "$COMP_CWORD" -eq 1 ]; then
        words='{first}'
    else
        case ${{COMP_WORDS[1]}} in
{cases}
        esac
    fi
    COMPREPLY=($(compgen -W "$words" -- "$word"))
}}
complete -o default -F _hkrep hkrep
"""

ZSH = """#compdef hkrep
# hkrep: the commands and their options, made from `hkrep --help`
_hkrep() {{
    local -a commands
    commands=(
{commands}
    )
    if (( CURRENT == 2 )); then
        _describe command commands
        _arguments {options}
        return
    fi
    local command=$words[2]
    shift words
    (( CURRENT-- ))
    case $command in
{cases}
    esac
}}
if [ "$funcstack[1]" = _hkrep ]; then
    _hkrep "$@"
else
    compdef _hkrep hkrep
fi
"""


def options(help_):
    return [it for it in help_.lists["Options"] if it.flags()]


def words_of(help_):
    """All words that may stand behind a command."""
    names = [it.name for it in help_.lists["Commands"]]
    return names + [flag for it in options(help_) for flag in it.flags() if flag.startswith("--")]


def bash(whole):
    names = [it.words[-1] for it in whole.below]
    # by command, since --wait has a value behind one and none behind another
    valued = sorted({quoted(f"{it.words[-1]} {flag}") for it in whole.below for option in options(it) if option.value() for flag in option.flags()})
    cases = [f"            {it.words[-1]}) words='{' '.join(words_of(it))}' ;;" for it in whole.below]
    cases.append(f"            help) words='{' '.join(names)}' ;;")
    return BASH.format(valued="|".join(valued), first=" ".join(words_of(whole)), cases="\n".join(cases))


def quoted(text):
    """A word of a shell."""
    return "'" + text.replace("'", "'\\''") + "'"


def coloned(text):
    """A text of zsh's, where a colon parts one from the next."""
    return text.replace("\\", "\\\\").replace(":", "\\:")


def zsh_option(entry):
    """What _arguments is told of an option."""
    said = coloned(entry.said).replace("[", "\\[").replace("]", "\\]")
    value = f":{entry.value()}:" if entry.value() else ""
    return " ".join(quoted(f"{flag}[{said}]{value}") for flag in entry.flags())


def zsh_case(help_):
    """The line of a command."""
    told = [zsh_option(it) for it in options(help_)]
    if help_.below:
        names = " ".join(it.words[-1] for it in help_.below)
        told.append(quoted(f"*:query:({names})"))
    else:
        told += [quoted(f":{coloned(it.name)} {coloned(it.said)}: ") for it in help_.lists["Arguments"]]
    return f"        {help_.words[-1]}) _arguments {' '.join(told)} ;;"


def zsh(whole):
    commands = [f"        {quoted(it.name + ':' + coloned(it.said))}" for it in whole.lists["Commands"]]
    cases = [zsh_case(it) for it in whole.below]
    cases.append(f"        help) _arguments {quoted(':command:(' + ' '.join(it.words[-1] for it in whole.below) + ')')} ;;")
    return ZSH.format(commands="\n".join(commands), options=" ".join(zsh_option(it) for it in options(whole)), cases="\n".join(cases))


def fish_option(where, entry):
    """The line of an option."""
    flags = [f"-l {flag[2:]}" if flag.startswith("--") else f"-s {flag[1:]}" for flag in entry.flags()]
    return f"complete -c hkrep -n {quoted(where)} {' '.join(flags)}{' -x' if entry.value() else ''} -d {fish_quoted(entry.said)}"


def fish_quoted(text):
    """A word of fish's."""
    return "'" + text.replace("\\", "\\\\").replace("'", "\\'") + "'"


def fish(whole):
    lines = ["# hkrep: the commands and their options, made from `hkrep --help`", "complete -c hkrep -f"]
    first = "__fish_use_subcommand"
    lines += [f"complete -c hkrep -n {first} -a {it.name} -d {fish_quoted(it.said)}" for it in whole.lists["Commands"]]
    lines += [fish_option(first, it) for it in options(whole)]
    for it in whole.below:
        where = f"__fish_seen_subcommand_from {it.words[-1]}"
        lines += [f"complete -c hkrep -n {quoted(where)} -a {query.words[-1]} -d {fish_quoted(query.about())}" for query in it.below]
        lines += [fish_option(where, option) for option in options(it)]
    return "\n".join(lines) + "\n"


def completions(whole):
    """All three by the names that the shells look for."""
    return {"hkrep": bash(whole), "_hkrep": zsh(whole), "hkrep.fish": fish(whole)}
