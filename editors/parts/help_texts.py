"""The help of the program, read out of its source, so that completions and the manual can't say anything else.

The texts stand in crates/command_line/src/texts.rt, and the words of the commands in reading.rt beside it. A command whose help says `Not
built yet.`, and an option of which its command's help says that it isn't built, are left out; so is each sentence that speaks of what is
built."""
import re
from dataclasses import dataclass

from parts.tokens import HOME

SOURCE = f"{HOME}/crates/command_line/src"
CONSTANT = re.compile(r'pub const (\w+): &str =\s*"((?:[^"\\]|\\.)*)";', re.DOTALL)
ARM = re.compile(r"Some\(CommandName::(\w+)\) => (\w+),")
WORD = re.compile(r'"(\w+)" => Some\(CommandName::(\w+)\),')
ESCAPE = re.compile(r"\\(u\{[0-9a-f]+\}|\n\s*|.)", re.DOTALL)
ROW = re.compile(r"  (\S.*?)  +(\S.*)$")
CONTINUED = re.compile(r"   +(\S.*)$")
QUOTED = re.compile(r"`([^`]+)`")
LACKS = re.compile(r"So far ([^.]*) (?:is|are)n't built\.|Not built yet\.")
BUILT = re.compile(r"So far ([^.]*) (?:is|are) built\.")


class Unknown(Exception):
    """A help text has a form that isn't known here."""


@dataclass
class Row:
    """A row of a help text: what is to be written, and what it does."""

    head: str
    text: str

    @property
    def words(self):
        """The words that are options or commands: those in front of the value."""
        words = self.head.replace(",", "").split()
        return [word for word in words if word.startswith("-")] or words[:1]

    @property
    def value(self):
        """The name of the option's value, or nothing."""
        last = self.head.split()[-1]
        return "" if last.startswith("-") else last


@dataclass
class Help:
    """A help text: what the command does, how it is used, its rows, and what else is said."""

    word: str
    summary: str
    usage: str
    rows: list
    notes: list

    @property
    def arguments(self):
        """The words of the usage behind the command, options left out."""
        return [word for word in self.usage.split()[2:] if word != "[OPTIONS]"]


def unescaped(text):
    """The text that a literal stands for."""

    def character(match):
        escape = match[1]
        if escape[0] == "u":
            return chr(int(escape[2:-1], 16))
        return "" if escape[0] == "\n" else {"n": "\n", "t": "\t"}.get(escape, escape)

    return ESCAPE.sub(character, text)


def rows_of(lines):
    """The rows of a table; a line that stands further in goes on with the row before it."""
    rows = []
    for line in lines:
        if row := ROW.match(line):
            rows.append(Row(*row.groups()))
        elif (more := CONTINUED.match(line)) and rows:
            rows[-1].text += " " + more[1]
        else:
            raise Unknown(f"this is no row of a table: {line!r}")
    return rows


def read(word, text):
    """A help text, in its parts."""
    parts = text.rstrip("\n").split("\n\n")
    usages = [part for part in parts if part.startswith("usage: ")]
    if len(usages) != 1 or parts[0] == usages[0]:
        raise Unknown(f"the help of {word} has no summary, or not one usage")
    rows = [row for part in parts if part.startswith("  ") for row in rows_of(part.split("\n"))]
    notes = [" ".join(part.split()) for part in parts[1:] if not part.startswith("  ") and part not in usages]
    return Help(word, " ".join(parts[0].split()), usages[0].removeprefix("usage: "), rows, notes)


def lacking(notes):
    """What isn't built, by the notes; everything where they say so of the command."""
    return [word for note in notes for match in LACKS.finditer(note) for word in QUOTED.findall(match[1] or "`*`")]


def without_lacks(help_text):
    """The same text without what isn't built, and without the sentences that speak of that."""
    lacks = lacking(help_text.notes)
    known = {word for row in help_text.rows for word in row.words}
    if not set(lacks) <= known | {"*"}:
        raise Unknown(f"the help of {help_text.word} lacks what it hasn't: {lacks}")
    notes = [BUILT.sub("", LACKS.sub("", note)).strip() for note in help_text.notes]
    rows = [row for row in help_text.rows if not set(row.words) & set(lacks)]
    return Help(help_text.word, help_text.summary, help_text.usage, rows, [note for note in notes if note])


class Program:
    """The program's own help, and that of each command that is built, in the order of the program's help."""

    def __init__(self):
        with open(f"{SOURCE}/texts.rt", encoding="utf-8") as file:
            source = file.read()
        with open(f"{SOURCE}/reading.rt", encoding="utf-8") as file:
            words = {name: word for word, name in WORD.findall(file.read())}
        texts = {name: unescaped(text) for name, text in CONSTANT.findall(source)}
        self.version = texts["VERSION"].strip()
        whole = read("orca", texts["HELP"])
        commands = {words[name]: read(words[name], texts[constant]) for name, constant in ARM.findall(source)}
        built = [word for word, text in commands.items() if "*" not in lacking(text.notes)]
        self.check(whole, commands, built)
        self.options = [row for row in whole.rows if row.words[0].startswith("-")]
        self.summary, self.usage = whole.summary, whole.usage
        self.notes = without_lacks(whole).notes
        self.rows = [row for row in whole.rows if row.words[0] in built]
        self.commands = [without_lacks(commands[row.words[0]]) for row in self.rows]

    @staticmethod
    def check(whole, commands, built):
        """Whether the program's help has just the commands, and names as built those whose own help says nothing else."""
        listed = [row.words[0] for row in whole.rows if not row.words[0].startswith("-")]
        if sorted(listed) != sorted(commands):
            raise Unknown(f"the help has {listed}, and there are {sorted(commands)}")
        said = [word for note in whole.notes for match in BUILT.finditer(note) for word in QUOTED.findall(match[1])]
        if sorted(said or commands) != sorted(built):
            raise Unknown(f"the help says that {said or 'all'} are built, and the commands say {built}")
