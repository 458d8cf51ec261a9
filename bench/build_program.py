"""Builds a program of bench/programs. The gate has no part in these: their sources end in .txt there, and libraries.txt has their lines of
crates.txt. A program is put into a scratch folder beside copies of the crates that it stands on, with what is built of them by links where
that can be; there the toolchain proves the program and builds it, over libraries that it proves first where they aren't proved yet."""
import contextlib
import os
import shutil
import subprocess
import tempfile

HOME = os.path.dirname(os.path.dirname(os.path.abspath(__file__)))
KEPT = f"{HOME}/bench/programs"


def lines_of(file):
    """The lines of a list of crates, by name."""
    with open(file, encoding="utf-8") as text:
        return {line.split(":")[0].split()[0]: line for line in text if line.strip() and not line.startswith("#")}


def below(name, lines):
    """The repository's crates that one stands on, in one step or more."""
    found, open_names = set(), [name]
    while open_names:
        for word in lines[open_names.pop()].split(":")[1].split():
            if word in lines and word not in found:
                found.add(word)
                open_names.append(word)
    return found


def linked(path, there):
    """A copy of a file as a link, or where that can't be as a file."""
    try:
        os.link(path, there)
    except OSError:
        shutil.copy2(path, there)


def place(scratch, name):
    """Puts the program, the crates below it and their list into the scratch folder."""
    lines = lines_of(f"{HOME}/crates.txt") | lines_of(f"{KEPT}/libraries.txt")
    os.mkdir(f"{scratch}/crates")
    crates = below(name, lines)
    for crate in crates:
        shutil.copytree(f"{HOME}/crates/{crate}", f"{scratch}/crates/{crate}", ignore=shutil.ignore_patterns("out"))
        if os.path.isdir(f"{HOME}/crates/{crate}/out/rlib"):
            shutil.copytree(f"{HOME}/crates/{crate}/out/rlib", f"{scratch}/crates/{crate}/out/rlib", copy_function=linked)
    shutil.copytree(f"{KEPT}/{name}", f"{scratch}/crates/{name}")
    for folder, _, names in os.walk(f"{scratch}/crates/{name}"):
        for file in names:
            if file.endswith((".rt.txt", ".antt.txt")):
                os.rename(f"{folder}/{file}", f"{folder}/{file.removesuffix('.txt')}")
    shutil.copy(f"{HOME}/HANDLES", scratch)
    with open(f"{scratch}/crates.txt", "w", encoding="utf-8") as text:
        text.writelines(line for crate, line in lines.items() if crate in crates or crate == name)


@contextlib.contextmanager
def built(name, words, wanted):
    """The path of the program while it is used. It is built by a run with these words, and must print then what is wanted."""
    with tempfile.TemporaryDirectory() as scratch:
        place(scratch, name)
        folder = f"{scratch}/crates/{name}"
        subprocess.run(["rt", "run", "--", *words], cwd=folder, stdout=subprocess.DEVNULL, check=True)
        program = f"{folder}/out/{name}"
        said = subprocess.run([program, *words], capture_output=True, text=True, check=True).stdout
        assert said == wanted, said
        yield program
