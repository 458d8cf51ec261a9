"""The syntax of Vim, how it knows the files, and how it comments and indents."""
from parts.tokens import MADE


def pattern(text):
    """A pattern between its marks."""
    mark = next(mark for mark in "\"+@!" if mark not in text)
    return mark + text + mark


def alternatives(tokens):
    """One of the tokens, longer ones first; every character but a backslash stands for itself."""
    return "\\V" + "\\|".join(sorted(tokens, key=lambda token: (-len(token), token)))


class Syntax:
    """The lines of the syntax. Of matches at one place the one that is defined last is taken; keywords come before all."""

    def __init__(self, tokens):
        self.tokens, self.shapes = tokens, tokens.shapes
        self.word = f"[{self.shapes['letters']}][{self.shapes['behind_a_letter']}]*"

    def group(self, name):
        """The group of a class."""
        return self.tokens.classes[name].group

    def match(self, name, text, more=""):
        """A line for what matches a pattern."""
        return f"syntax match {self.group(name)} {pattern(text)}{more}"

    def next_to(self, token):
        """What is said of the name behind a token: it may be a known word, too."""
        names = [name for name, listed in self.tokens.named_behind.items() if token in listed]
        return f" nextgroup=@orcaWord,{self.group(names[0])}Here skipwhite" if names else ""

    def literals(self):
        """Chars and strings: the wrong ones first, and those that are open at their line's end last."""
        char, string = self.shapes["char"], self.shapes["string"]
        escaped = self.shapes["escaped"].replace("\\", "\\\\")
        escape = f"\\\\[{escaped}]"
        content = {quote: f"\\%([^{quote}\\\\]\\|\\\\.\\)*" for quote in (char, string)}
        yield self.match("wrong", f"\\\\.\\|[^{self.shapes['plain']}]", " contained").replace("orcaWrong", "orcaWrongInside")
        yield self.match("escape", escape, " contained")
        yield self.match("wrong", f"{char}{content[char]}{char}")
        plain_char = f"\\%([{char}\\\\]\\)\\@![{self.shapes['plain']}]"
        yield self.match("char literal", f"{char}\\%({plain_char}\\|{escape}\\){char}", " contains=orcaEscape")
        yield self.match("string literal", f"{string}{content[string]}{string}", " contains=orcaEscape,orcaWrongInside,@Spell")
        yield from (self.match("wrong", f"{quote}{content[quote]}\\\\\\?$") for quote in (char, string))

    def words(self):
        """Keywords and predeclared names; of one class those that a name of one kind follows stand on one line."""
        for each in [*self.tokens.of("keywords"), *self.tokens.of("predeclared")]:
            lines = {}
            for token in each.tokens:
                lines.setdefault(self.next_to(token), []).append(token)
            yield from (f"syntax keyword {each.group}{more} {' '.join(listed)}" for more, listed in lines.items())
        groups = [each.group for form in ("keywords", "predeclared") for each in self.tokens.of(form)]
        yield f"syntax cluster orcaWord contains={','.join(groups)}"

    def names(self):
        """Names: what stands for nothing known, before a bracket, and behind a word that says what it is."""
        yield self.match("wrong", "[^ \\t\\r]")
        yield self.match("name", self.word)
        yield self.match("function name", f"{self.word}\\ze[ \\t]*(")
        for name in self.tokens.named_behind:
            yield f"syntax match {self.group(name)}Here {pattern(self.word)} contained"

    def symbols(self):
        """Symbols: those with which a longer one begins first."""
        for each in reversed(self.tokens.symbols()):
            yield self.match(each.name, alternatives(each.tokens), self.next_to(each.tokens[0]))

    def links(self):
        """What each group looks like."""
        for each in self.tokens.classes.values():
            if each.vim:
                yield f"highlight default link {each.group} {each.vim}"
        yield "highlight default link orcaWrongInside orcaWrong"
        yield from (f"highlight default link {self.group(name)}Here {self.group(name)}" for name in self.tokens.named_behind)

    def text(self):
        """The whole file."""
        lines = [f"\" Syntax of Orca. {MADE}", "if exists('b:current_syntax')", "  finish", "endif", "syntax case match"]
        lines += ["syntax iskeyword 48-57,65-90,97-122,_", *self.words(), *self.names()]
        lines += [self.match("number", f"[{self.shapes['digits']}]\\+"), *self.symbols(), *self.literals()]
        lines += [self.match("comment", f"{self.shapes['comment']}.*", " contains=@Spell"), *self.links()]
        return "\n".join([*lines, "let b:current_syntax = 'orca'", ""])


def detection():
    """How the files are known."""
    return f"\" {MADE}\nautocmd BufRead,BufNewFile *.orca setfiletype orca\n"


def plugin(tokens):
    """How lines are commented."""
    sign = tokens.shapes["comment"]
    lines = [f"\" {MADE}", "if exists('b:did_ftplugin')", "  finish", "endif", "let b:did_ftplugin = 1"]
    lines += [f"setlocal comments=:{sign} commentstring={sign}\\ %s", "let b:undo_ftplugin = 'setlocal comments< commentstring<'", ""]
    return "\n".join(lines)


def indent(tokens):
    """How lines are indented: a step further in behind what opens, and a step further out where something is closed."""
    opening, lines, closing = ("\\|".join(tokens.indentation[name]) for name in ("opening", "opening_line", "closing"))
    return f"""\" {MADE}
if exists('b:did_indent')
  finish
endif
let b:did_indent = 1
setlocal indentexpr=OrcaIndent() indentkeys=o,O,{','.join(f'0={word}' for word in tokens.indentation['closing'])}
let b:undo_indent = 'setlocal indentexpr< indentkeys<'
function! OrcaIndent()
  let before = prevnonblank(v:lnum - 1)
  let line = getline(before)
  let opens = line =~# '^[^#]*\\<\\%({opening}\\)\\s*\\%(#.*\\)\\?$' || line =~# '^\\s*\\%({lines}\\)\\>[^#]*;\\s*\\%(#.*\\)\\?$'
  let closes = getline(v:lnum) =~# '^\\s*\\%({closing}\\)\\>'
  return max([0, indent(before) + (opens - closes) * shiftwidth()])
endfunction
"""


def files(tokens):
    """The files, by name in editors/."""
    return {
        "vim/syntax/orca.vim": Syntax(tokens).text(),
        "vim/ftdetect/orca.vim": detection(),
        "vim/ftplugin/orca.vim": plugin(tokens),
        "vim/indent/orca.vim": indent(tokens),
    }
