"""The page of the manual, docs/orca.1: of the help texts, and of what help doesn't say: statuses, examples, documents."""
import re

MADE = '.\\" Made by editors/make of the help texts in crates/command_line/src/texts.rt: change those, and make it again.'
CODE = re.compile(r"`([^`]+)`")
STATUSES = [
    "The run is over: each process that is still there ended, and none by a fault. Or the program that was checked is accepted; or the "
    "history that was replayed is one of the program; or help or the version was printed.",
    "The files are no program. The line that is printed says where, and why.",
    "The words are no command, or ask for what isn't built.",
    "A process ended by a fault.",
    "A process waits at a call whose guards are all false, and nothing more will happen.",
    "More members crashed or were left out than `--resilience` says, and the others can't go on.",
    "The run had as many events as `--events` says.",
    "A process took as many turns as `--turns` says.",
    "A file is there and can't be read.",
    "A file isn't there.",
    "A write failed.",
    "A limit was exceeded. The line that is printed says which.",
    "Memory lacked.",
    "The history isn't one of the program. The line that is printed says at which of its lines it breaks.",
    "The script is none. The line that is printed says which of its lines is wrong.",
]
NOTES = [
    "A process whose member crashes, or is left out, isn't waited for, and what it would still have written is never printed; that holds "
    "of `OrcaMain`, too, which runs on member 0. So where a script crashes member 0, a run may print nothing and end with 0.",
]
EXAMPLES = [
    ("run examples/one.orca", "Runs a program on three members."),
    ("run --nodes 5 --resilience 2 --script examples/lost.faults examples/one.orca", "Runs it on five, with the faults of a script."),
    ("check examples/one.orca", "Says whether the file is a program."),
]
DOCUMENTS = [
    ("docs/LANGUAGE.md", "The language."),
    ("docs/FORMATS.md", "What is printed for each status, and the form of histories."),
    ("docs/RUNTIME.md", "How a run goes, and what stands in a script of faults."),
]


def plain(text):
    """A text as it is, for troff."""
    escaped = text.replace("\\", "\\e").replace("-", "\\-").replace("'", "\\(aq")
    return "\\&" + escaped if escaped.startswith(".") else escaped


def prose(text):
    """A text in which what stands between backticks is bold."""
    pieces = CODE.split(text)
    return "".join(f"\\fB{plain(piece)}\\fR" if at % 2 else plain(piece) for at, piece in enumerate(pieces))


def usage_line(words):
    """How a command is used: what is to be written so is bold, what stands for something else is italic."""
    shown = []
    for word in words.split():
        name = word.strip("[].")
        font = "I" if name.isupper() and not name.startswith("-") else "B"
        shown.append(word.replace(name, f"\\f{font}{plain(name)}\\fR", 1))
    return " ".join(shown)


def option_rows(rows):
    """The options of a table."""
    for row in rows:
        yield from (".TP", ", ".join(usage_line(part) for part in row.head.split(", ")), prose(row.text))


def command_part(row, text):
    """What is said of a command."""
    yield from (f".SS {usage_line('orca ' + row.head)}", prose(text.summary))
    yield from option_rows(text.rows)
    for note in text.notes:
        yield from (".PP", prose(note))


def lines(program):
    """The lines of the page."""
    summary = program.summary.rstrip(".")
    yield from (MADE, f'.TH ORCA 1 "" "{plain(program.version)}" "Orca"')
    yield from (".SH NAME", f"orca \\- {plain(summary[0].lower() + summary[1:])}", ".SH SYNOPSIS")
    for number, text in enumerate(program.commands):
        yield from [".br"] * bool(number)
        yield usage_line(text.usage)
    yield from (".SH DESCRIPTION", prose(program.summary))
    yield "In parentheses stands what an option is where it isn\\(aqt used."
    for note in program.notes:
        yield from (".PP", prose(note))
    yield ".SH COMMANDS"
    for row, text in zip(program.rows, program.commands):
        yield from command_part(row, text)
    yield from (".SH OPTIONS", *option_rows(program.options), '.SH "EXIT STATUS"')
    for number, where in enumerate(STATUSES):
        yield from (".TP", f"\\fB{number}\\fR", prose(where))
    yield ".SH NOTES"
    for number, note in enumerate(NOTES):
        yield from [".PP"] * bool(number)
        yield prose(note)
    yield ".SH EXAMPLES"
    for words, text in EXAMPLES:
        yield from (".TP", f"\\fB{plain('orca ' + words)}\\fR", prose(text))
    yield from ('.SH "SEE ALSO"', "In the repository:")
    for path, text in DOCUMENTS:
        yield from (".TP", plain(path), prose(text))


def files(program):
    """The page, by its name in editors/."""
    return {"../docs/orca.1": "\n".join(lines(program)) + "\n"}
