"""What a text is expected to look like: editors/expected/NAME.txt, of examples/NAME.orca or editors/expected/NAME.orca.

Such a file was written by hand. Each line is the name of a class, `: `, and tokens or pieces of one that have it, in the order of the
text. Blanks aren't compared."""
import os

from parts.tokens import FOLDER, HOME


def names():
    """The names of all."""
    return sorted(file.removesuffix(".txt") for file in os.listdir(f"{FOLDER}/expected") if file.endswith(".txt"))


def path_of(name):
    """The path of the text."""
    own = f"{FOLDER}/expected/{name}.orca"
    return own if os.path.exists(own) else f"{HOME}/examples/{name}.orca"


def text_of(name):
    """The text."""
    with open(path_of(name), encoding="utf-8") as file:
        return file.read()


def classes_of(name):
    """The characters of the text that are no blanks, each with the name of the class that is expected."""
    with open(f"{FOLDER}/expected/{name}.txt", encoding="utf-8") as file:
        rows = [line.rstrip("\n").split(": ", 1) for line in file]
    return [(sign, row[0]) for row in rows for sign in row[1] if not sign.isspace()]


def characters(text):
    """The characters of a text that are no blanks, each with its line and column from 0."""
    return [
        (sign, line, column)
        for line, content in enumerate(text.split("\n"))
        for column, sign in enumerate(content)
        if not sign.isspace()
    ]
