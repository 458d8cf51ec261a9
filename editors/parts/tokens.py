"""The list of the language's tokens, editors/tokens.json, in the form in which the modes of editors are made of it."""
import json
import os
from dataclasses import dataclass

HOME = os.path.dirname(os.path.dirname(os.path.dirname(os.path.realpath(__file__))))
FOLDER = f"{HOME}/editors"
MADE = "Made by editors/make of editors/tokens.json: change that, and make it again."


@dataclass(frozen=True)
class Class:
    """A class of tokens: its name, the form of its tokens, the tokens if they are listed, and what it is in each editor."""

    name: str
    form: str
    tokens: tuple
    scope: str
    vim: str
    emacs: str

    @property
    def group(self):
        """The name of its group in Vim."""
        return "orca" + "".join(word.capitalize() for word in self.name.split())


class Tokens:
    """All classes by name, the shapes of tokens, and what stands behind which words."""

    def __init__(self):
        with open(f"{FOLDER}/tokens.json", encoding="utf-8") as file:
            listed = json.load(file)
        self.shapes = listed["shapes"]
        self.classes = {}
        for form in ("keywords", "predeclared", "symbols", "others"):
            for name, row in listed[form].items():
                tokens = tuple(row.get("tokens", "").split())
                self.classes[name] = Class(name, form, tokens, row["scope"] + ".orca", row["vim"], row["emacs"])
        self.named_behind = {name: tuple(words.split()) for name, words in listed["named_behind"].items()}
        self.indentation = {name: tuple(words.split()) for name, words in listed["indentation"].items()}

    def of(self, form):
        """The classes of a form."""
        return [each for each in self.classes.values() if each.form == form]

    def symbols(self):
        """The classes of symbols, such that no symbol begins with one of a later class."""
        return sorted(self.of("symbols"), key=lambda each: -max(map(len, each.tokens)))

    def words(self, *forms):
        """All tokens of these forms, with the class of each."""
        return {token: each for form in forms for each in self.of(form) for token in each.tokens}
