"""The TextMate grammar, in JSON and in XML, and the extension of VS Code round it."""
import json
import plistlib
import re

from parts.tokens import MADE

VERSION = "0.1.0"
BLANKS = "[ \\t]+"
SPECIAL = re.compile(r"[][.^$*+?{}|()\\]")


def any_of(tokens):
    """An expression for one of the tokens, longer ones first, since the first that fits is taken."""
    longest_first = sorted(tokens, key=lambda token: (-len(token), token))
    return "|".join(SPECIAL.sub(r"\\\g<0>", token) for token in longest_first)


class Grammar:
    """The rules of the grammar, in the order in which they are tried. Each token is one rule's match, so that a word is never cut."""

    def __init__(self, tokens):
        self.tokens, self.shapes = tokens, tokens.shapes
        self.end_of_word = f"(?![{self.shapes['behind_a_letter']}])"
        self.word = f"[{self.shapes['letters']}][{self.shapes['behind_a_letter']}]*"
        known = any_of(tokens.words("keywords", "predeclared"))
        self.new_name = f"(?!(?:{known}){self.end_of_word}){self.word}"

    def scope(self, name):
        """The scope of a class."""
        return self.tokens.classes[name].scope

    def wrong(self, what):
        """The scope of what is no token."""
        return self.scope("wrong").replace(".orca", f".{what}.orca")

    def listed(self, each, behind=""):
        """The rule of a class whose tokens are listed."""
        return {"match": f"(?:{any_of(each.tokens)}){behind}", "name": each.scope}

    def literals(self):
        """Chars and strings. First comes one that is open at its line's end."""
        char, string = self.shapes["char"], self.shapes["string"]
        escaped = SPECIAL.sub(r"\\\g<0>", self.shapes["escaped"])
        escape = f"\\\\[{escaped}]"
        content = {quote: f"(?:[^{quote}\\\\\\n]|\\\\.)*" for quote in (char, string)}
        plain_char = f"(?![{char}\\\\])[{self.shapes['plain']}]"
        yield from ({"match": f"{quote}{content[quote]}\\\\?$", "name": self.wrong("open")} for quote in (char, string))
        yield {
            "match": f"{char}(?:{plain_char}|({escape})){char}",
            "name": self.scope("char literal"),
            "captures": {"1": {"name": self.scope("escape")}},
        }
        yield {"match": f"{char}{content[char]}{char}", "name": self.wrong("char")}
        yield {
            "begin": string,
            "end": string,
            "name": self.scope("string literal"),
            "patterns": [
                {"match": escape, "name": self.scope("escape")},
                {"match": f"\\\\.|[^{self.shapes['plain']}\\n]", "name": self.wrong("character")},
            ],
        }

    def heads(self):
        """Tokens and the new names behind them, of which they tell what these are."""
        known = self.tokens.words("keywords", "symbols")
        for name, listed in self.tokens.named_behind.items():
            for each in self.tokens.classes.values():
                before = [token for token in listed if known[token] == each]
                if before:
                    captures = {"1": {"name": each.scope}, "2": {"name": self.scope(name)}}
                    blanks = BLANKS if each.form == "keywords" else "[ \\t]*"
                    yield {"match": f"({any_of(before)}){blanks}({self.new_name})", "captures": captures}

    def patterns(self):
        """All rules, by name."""
        yield "comment", [{"match": f"{self.shapes['comment']}.*$", "name": self.scope("comment")}]
        yield "literals", list(self.literals())
        yield "numbers", [{"match": f"[{self.shapes['digits']}]+", "name": self.scope("number")}]
        yield "heads", list(self.heads())
        for form in ("keywords", "predeclared"):
            yield form, [self.listed(each, self.end_of_word) for each in self.tokens.of(form)]
        names = [{"match": f"{self.word}(?=[ \\t]*\\()", "name": self.scope("function name")}]
        yield "names", [*names, {"match": self.word, "name": self.scope("name")}]
        yield "symbols", [self.listed(each) for each in self.tokens.symbols()]
        yield "stray", [{"match": "[^ \\t\\r\\n]", "name": self.wrong("stray")}]


def text_of(value):
    """The text of a file."""
    return json.dumps(value, indent=2, ensure_ascii=False) + "\n"


def grammar(tokens):
    """The grammar."""
    repository = dict(Grammar(tokens).patterns())
    return {
        "comment": MADE,
        "name": "Orca",
        "scopeName": "source.orca",
        "fileTypes": ["orca"],
        "patterns": [{"include": f"#{name}"} for name in repository],
        "repository": {name: {"patterns": patterns} for name, patterns in repository.items()},
    }


def indentation(tokens):
    """When a line's successor, or a line itself, stands further in or out."""
    opening, lines, closing = (any_of(tokens.indentation[name]) for name in ("opening", "opening_line", "closing"))
    return {
        "increaseIndentPattern": f"^[^#]*\\b(?:{opening})\\s*(?:#.*)?$|^\\s*(?:{lines})\\b[^#]*;\\s*(?:#.*)?$",
        "decreaseIndentPattern": f"^\\s*(?:{closing})\\b",
    }


def configuration(tokens):
    """Comments, pairs and indentation in VS Code."""
    shapes = tokens.shapes
    brackets = [["(", ")"], ["[", "]"]]
    quotes = [[shapes["string"]] * 2, [shapes["char"]] * 2]
    closing = [{"open": left, "close": right} for left, right in brackets]
    return {
        "comments": {"lineComment": shapes["comment"]},
        "brackets": brackets,
        "autoClosingPairs": closing + [{"open": left, "close": right, "notIn": ["string", "comment"]} for left, right in quotes],
        "surroundingPairs": brackets + quotes,
        "wordPattern": f"[{shapes['letters']}][{shapes['behind_a_letter']}]*",
        "indentationRules": indentation(tokens),
    }


def package():
    """The manifest of the extension."""
    return {
        "name": "orca",
        "displayName": "Orca",
        "description": "Colours, brackets and indentation for programs in Orca.",
        "version": VERSION,
        "publisher": "caliperivy",
        "license": "MIT",
        "engines": {"vscode": "^1.50.0"},
        "categories": ["Programming Languages"],
        "contributes": {
            "languages": [
                {"id": "orca", "aliases": ["Orca"], "extensions": [".orca"], "configuration": "./language-configuration.json"}
            ],
            "grammars": [{"language": "orca", "scopeName": "source.orca", "path": "./syntaxes/orca.tmLanguage.json"}],
        },
    }


def files(tokens):
    """The files, by name in editors/."""
    made = grammar(tokens)
    return {
        "orca.tmLanguage.json": text_of(made),
        "vscode/package.json": text_of(package()),
        "vscode/language-configuration.json": text_of(configuration(tokens)),
        "vscode/syntaxes/orca.tmLanguage.json": text_of(made),
        "sublime/Orca.tmLanguage": plistlib.dumps(made, sort_keys=False).decode(),
    }
