"""The completions of the command line for bash and for zsh."""
import re

MADE = "# Made by editors/make of the help texts in crates/command_line/src/texts.rt: change those, and make it again."
FEW = 16
RANGE = re.compile(r"\b(\d+) to (\d+)\b")

BASH_TEXT = r"""# The lines that are read, as what may be meant.
_orca_take() {
    local line
    while IFS= read -r line; do COMPREPLY+=("$line"); done
}

# The words of a list that begin with the word at the cursor.
_orca_words() {
    _orca_take < <(compgen -W "$1" -- "$word")
}

# The files whose names end so and begin with the word at the cursor, and the folders.
_orca_files() {
    compopt -o filenames 2>/dev/null
    _orca_take < <({ compgen -d -- "$word"; compgen -f -- "$word" | grep -- "$1\$"; } | sort -u)
}

_orca() {
    local word=${COMP_WORDS[COMP_CWORD]} before=${COMP_WORDS[COMP_CWORD - 1]} options= before_files=0 only_files= arguments=0 i
    COMPREPLY=()
    if ((COMP_CWORD == 1)); then
        _orca_words '%commands%'
        return
    fi
    case ${COMP_WORDS[1]} in
%options%
        *) return ;;
    esac
    # `--nodes=3` comes in three words.
    if [[ $word == '=' ]]; then
        word=
    elif [[ $before == '=' ]]; then
        before=${COMP_WORDS[COMP_CWORD - 2]}
    fi
    for ((i = 2; i < COMP_CWORD; i++)); do
        [[ $only_files ]] || options=${options/ "${COMP_WORDS[i]}" / }
        case ${COMP_WORDS[i]} in
            --) only_files=yes ;;
            %valued%)
                [[ ${COMP_WORDS[i + 1]} == '=' ]] && ((i++))
                ((i++))
                ;;
            -*) [[ $only_files ]] && ((arguments++)) ;;
            *) ((arguments++)) ;;
        esac
    done
    [[ $only_files ]] || case $before in
%values%
    esac
    if [[ $word == -* && ! $only_files ]]; then
        _orca_words "$options"
    elif ((arguments < before_files)); then
        _orca_files ''
    else
        _orca_files '[.]orca'
    fi
}
complete -F _orca orca
"""


def words_of(rows):
    """All words of these rows."""
    return [word for row in rows for word in row.words]


def numbers_of(row):
    """The numbers that an option may have, where they are few."""
    found = RANGE.search(row.text)
    least, most = map(int, found.groups()) if found and row.value != "FILE" else (0, FEW)
    return [str(number) for number in range(least, most + 1)] if found and most <= FEW else []


class Bash:
    """The function of bash."""

    def __init__(self, program):
        self.program = program
        self.help_words = words_of(program.options[:1])
        self.valued = {word: row for text in program.commands for row in text.rows if row.value for word in row.words}

    def options(self):
        """The arms that give the options of each command, and how many arguments stand in front of the files."""
        for text in self.program.commands:
            words = " ".join(words_of(text.rows) + self.help_words)
            yield f"        {text.word}) options=' {words} ' before_files={len(text.arguments) - 1} ;;"

    def values(self):
        """The arms that give the values of an option."""
        for word, row in self.valued.items():
            if row.value == "FILE":
                yield f"        {word}) _orca_files ''; return ;;"
            else:
                numbers = numbers_of(row)
                yield f"        {word}) _orca_words '{' '.join(numbers)}'; return ;;"

    def text(self):
        """The whole file."""
        pieces = {
            "commands": " ".join([text.word for text in self.program.commands] + words_of(self.program.options)),
            "options": "\n".join(self.options()),
            "valued": " | ".join(self.valued),
            "values": "\n".join(self.values()),
        }
        text = f"{MADE}\n\n{BASH_TEXT}"
        for name, piece in pieces.items():
            text = text.replace(f"%{name}%", piece)
        return text


def zsh_text(text):
    """A text between two `'`, within `[ ]`."""
    return re.sub(r"([\[\]:\\])", r"\\\1", text).replace("'", "'\\''")


class Zsh:
    """The function of zsh."""

    def __init__(self, program):
        self.program = program

    @staticmethod
    def option(row):
        """What `_arguments` is told of an option."""
        if not row.value:
            return f"'{row.words[0]}[{zsh_text(row.text)}]'"
        values = "_files" if row.value == "FILE" else f"({' '.join(numbers_of(row))})" if numbers_of(row) else " "
        return f"'{row.words[0]}=[{zsh_text(row.text)}]:{row.value}:{values}'"

    def alone(self, row):
        """The same of an option that stands alone."""
        return "'(- *)'{" + ",".join(row.words) + f"}}'[{zsh_text(row.text)}]'"

    def command(self, text):
        """The arm of a command."""
        arguments = [
            f"'*:{name}:_files -g \"*.orca\"'" if name == "FILE..." else f"':{name}:_files'" for name in text.arguments
        ]
        words = [self.alone(self.program.options[0]), *map(self.option, text.rows), *arguments]
        rows = " \\\n                ".join(words)
        return f"            {text.word})\n                _arguments -S \\\n                {rows}\n                ;;"

    def text(self):
        """The whole file."""
        rows = "\n        ".join(f"'{row.words[0]}:{zsh_text(row.text)}'" for row in self.program.rows)
        options = " \\\n        ".join(self.alone(row) for row in self.program.options)
        commands = "\n".join(map(self.command, self.program.commands))
        return f"""#compdef orca
{MADE}

_orca() {{
    local curcontext=$curcontext state line
    typeset -A opt_args
    local -a commands
    commands=(
        {rows}
    )
    _arguments -C \\
        {options} \\
        '1:command:->command' \\
        '*::word:->word' && return
    case $state in
    command) _describe -t commands command commands ;;
    word)
        case $words[1] in
{commands}
        esac
        ;;
    esac
}}

_orca "$@"
"""


def files(program):
    """The files, by name in editors/."""
    return {"completions/orca.bash": Bash(program).text(), "completions/_orca": Zsh(program).text()}
