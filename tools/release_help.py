"""A program's help, as clap prints it, as a man page and as completions for bash, zsh and fish."""
import dataclasses
import re
import subprocess
import sys

HEADINGS = ("Commands", "Arguments", "Options")
# A line of a list: the term, and what is said of it. Further lines of that have no term.
LINE = re.compile(r" {2,}(\S.*?) {2,}(\S.*)")
FURTHER = re.compile(r" {8,}(\S.*)")
# The values of an option, as `Form: der, pem or hex (default: ..)` names them
VALUES = re.compile(r"^Form: ((?:\w+, )*\w+) or (\w+)\b")


@dataclasses.dataclass
class Option:
    """An option: its names with their hyphens, and the name and the possible values of what follows it."""

    names: list
    value: str
    values: list
    text: str

    @property
    def brief(self):
        """The first line of the text."""
        return self.text.partition("\n")[0].rstrip(".")


@dataclasses.dataclass
class Help:
    """What the program, or one of its commands, says of itself."""

    name: str
    about: str
    usage: str
    arguments: list
    options: list
    commands: list
    after: list


def rows_of(lines):
    """The term and the text of each entry of a list."""
    rows = []
    for line in lines:
        if row := LINE.fullmatch(line):
            rows.append(row.groups())
        elif rows and (more := FURTHER.fullmatch(line)):
            term, text = rows[-1]
            rows[-1] = term, f"{text}\n{more[1]}"
        else:
            sys.exit(f"release: a line of help that isn't a term and its text: {line!r}")
    return rows


def option_of(term, text):
    names, _, value = term.partition(" <")
    found = VALUES.search(text)
    values = [*found[1].split(", "), found[2]] if found else []
    return Option(names.split(", "), value.rstrip(">"), values, text)


def read_help(name, text):
    """Reads the text of --help. A block that isn't a list of terms is kept as its lines."""
    about, usage, *blocks = text.rstrip("\n").split("\n\n")
    lists, after = dict.fromkeys(HEADINGS, []), []
    for block in blocks:
        heading, *lines = block.split("\n")
        if heading.rstrip(":") in HEADINGS:
            lists[heading.rstrip(":")] = rows_of(lines)
        else:
            after.append((heading.rstrip(":"), [line.strip() for line in lines]))
    options = [option_of(*row) for row in lists["Options"]]
    return Help(name, about, usage.removeprefix("Usage: "), lists["Arguments"], options, lists["Commands"], after)


def helps_of(program, name):
    """The help of a program, and that of each of its commands."""
    said = lambda *words: subprocess.run([program, *words, "--help"], capture_output=True, text=True, check=True).stdout
    whole = read_help(name, said())
    return whole, [read_help(it, said(it)) for it, _ in whole.commands if it != "help"]


# The man page


def roff(text):
    """A text as roff prints it: hyphens and quotes that can be copied, and no line that is a request."""
    text = text.replace("\\", "\\e").replace("-", "\\-").replace("'", "\\(aq")
    return "\\&" + text if text.startswith(".") else text


def roff_list(rows):
    return [line for term, text in rows for line in (".TP", f".B {roff(term)}", roff(text))]


def roff_options(options):
    rows = []
    for it in options:
        rows.append((", ".join(it.names) + (f" {it.value}" if it.value else ""), sentence(it.text)))
    return roff_list(rows)


def sentence(text):
    text = text.replace("\n", " ")
    return text if text.endswith(".") else text + "."


def roff_command(it):
    lines = [f".SS {roff(it.usage)}", roff(sentence(it.about))]
    return [*lines, *roff_list((term, sentence(text)) for term, text in it.arguments), *roff_options(it.options)]


def man_page(whole, commands, version, date, more):
    """The man page. `more` has its last sections, which no help has: pairs of a heading and lines of roff."""
    about = whole.about[0].lower() + whole.about[1:]
    lines = [
        f".TH {whole.name.upper()} 1 \"{date}\" \"{whole.name} {version}\" \"User Commands\"",
        *(".SH NAME", f"{whole.name} \\- {roff(about)}"),
        *(".SH SYNOPSIS", *(line for it in commands for line in (f".B {roff(it.usage)}", ".br"))),
        *(".SH COMMANDS", *(line for it in commands for line in roff_command(it))),
        *(".SH OPTIONS", *roff_options(whole.options)),
    ]
    for heading, rows in whole.after:
        lines += [f".SH {roff(heading.upper())}", ".nf", *(roff(row) for row in rows), ".fi"]
    for heading, rows in more:
        lines += [f".SH {heading}", *rows]
    return "\n".join(lines) + "\n"


# Completions


def names_of(options):
    return [name for it in options for name in it.names]


def bash_completion(whole, commands):
    """Words after the program's name: a command, then its options, and files in any other position."""
    first = [name for name, _ in whole.commands] + names_of(whole.options)
    cases = []
    for it in commands:
        cases += [f"    {it.name}/{name}) words='{' '.join(option.values)}' ;;"
                  for option in it.options if option.value for name in option.names]
        cases += [f"    {it.name}/*) [[ $word != -* ]] || words='{' '.join(names_of(it.options))}' ;;"]
    asked = " ".join(it.name for it in commands)
    return "\n".join([
        f"# Completes the words after {whole.name} in bash.",
        f"_{whole.name}() {{",
        "    local word=${COMP_WORDS[COMP_CWORD]} words=",
        "    case $COMP_CWORD:${COMP_WORDS[1]}/${COMP_WORDS[COMP_CWORD - 1]} in",
        f"    1:*) words='{' '.join(first)}' ;;",
        f"    2:help/*) words='{asked}' ;;",
        *(case.replace("    ", "    *:", 1) for case in cases),
        "    esac",
        '    COMPREPLY=($(compgen -W "$words" -- "$word"))',
        "}",
        f"complete -o bashdefault -o default -F _{whole.name} {whole.name}",
        "",
    ])


def quoted(text):
    """A text between single quotes of zsh."""
    return "'" + text.replace("'", "'\\''") + "'"


def zsh_options(options):
    lines = []
    for it in options:
        # Of the names of one option another is no longer offered.
        others = f"({' '.join(it.names)})" if len(it.names) > 1 else ""
        follows = f":{it.value}:({' '.join(it.values)})" if it.value else ""
        before = quoted(others) if others else ""
        lines += [before + name + quoted(f"[{escape_zsh(it.brief)}]{follows}") for name in it.names]
    return lines


def escape_zsh(text):
    return re.sub(r"([\[\]:\\])", r"\\\1", text)


def zsh_arguments(indent, rows):
    return (" \\\n" + indent + "    ").join([indent + "_arguments", *rows])


def zsh_completion(whole, commands):
    lists = [quoted(f"{escape_zsh(name)}:{text}") for name, text in whole.commands]
    lines = [
        f"#compdef {whole.name}",
        f"# Completes the words after {whole.name} in zsh.",
        "local context state line",
        "typeset -A opt_args",
        "local -a commands",
        "commands=(",
        *(f"    {it}" for it in lists),
        ")",
        zsh_arguments("", ["-C", *zsh_options(whole.options), "'1: :->command'", "'*:: :->argument'"]),
        "case $state in",
        "command) _describe command commands ;;",
        "argument)",
        "    case $words[1] in",
    ]
    for it in commands:
        rest = "'*:file:_files'" if any(term.endswith("...") for term, _ in it.arguments) else "'1:file:_files'"
        lines += [f"    {it.name})", zsh_arguments("        ", [*zsh_options(it.options), rest]), "        ;;"]
    return "\n".join([*lines, "    help) _describe command commands ;;", "    esac", "    ;;", "esac", ""])


def fish_quoted(text):
    return "'" + text.replace("\\", "\\\\").replace("'", "\\'") + "'"


def fish_option(program, condition, it):
    names = [f"-l {name[2:]}" if name.startswith("--") else f"-s {name[1:]}" for name in it.names]
    follows = [f"-x -a {fish_quoted(' '.join(it.values))}"] if it.value else []
    return " ".join([f"complete -c {program} -n {condition}", *names, *follows, "-d", fish_quoted(it.brief)])


def fish_completion(whole, commands):
    program, first = whole.name, "__fish_use_subcommand"
    lines = [f"# Completes the words after {program} in fish.", f"complete -c {program} -n {first} -f"]
    for name, text in whole.commands:
        lines.append(f"complete -c {program} -n {first} -a {name} -d {fish_quoted(text)}")
    lines += [fish_option(program, first, it) for it in whole.options]
    for it in commands:
        condition = f"'__fish_seen_subcommand_from {it.name}'"
        lines += [fish_option(program, condition, option) for option in it.options]
    asked = " ".join(it.name for it in commands)
    lines.append(f"complete -c {program} -n '__fish_seen_subcommand_from help' -f -a '{asked}'")
    return "\n".join(lines) + "\n"
