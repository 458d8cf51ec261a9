"""Tests of tools/picture, started by hand: python3 tools/picture_test.py

What is expected was worked out by hand from the documents: from the form of lines and values (docs/FORMATS.md), from what runs of the
documents' programs do, and from how suspended calls settle (docs/RUNTIME.md). None of it was taken from a picture."""
import collections
import contextlib
import importlib.machinery
import importlib.util
import io
import os
import re
import subprocess
import sys
import tempfile
import unittest
import unittest.mock
import xml.etree.ElementTree as tree

HOME = os.path.dirname(os.path.dirname(os.path.abspath(__file__)))
PICTURE = os.path.join(HOME, "tools", "picture")
PICTURES = os.path.join(HOME, "docs", "pictures")
SVG = "{http://www.w3.org/2000/svg}"

ONE_CELL = """0 0 make Cell o0.1 none
0 1 call Cell$Assign o0.1 (6) guard 0 none
0 2 call Cell$Value o0.1 () guard 0 6
0 3 call Output$WriteLine o0.0 ("6") guard 0 none
"""
# What `run --explain` prints of that run.
ONE_CELL_PLACES = """0 0 entry 1
0 1 entry 2
0 2 read at 2
0 3 entry 3
"""
# A Take is suspended until a process that was forked before it puts 11.
ONE_TAKE = """0 0 make Pool o0.1 none
0 1 fork Producer (o0.1 10) on 1 none
1 0 call Pool$Put o0.1 (11) guard 0 none
0 2 call Pool$Take o0.1 () guard 1 11
"""
# Two processes wait in Take, and a third puts 7: the older call gets it, and the other isn't in the history.
TWO_TAKES = """0 0 make Pool o0.1 none
0 1 fork Taker (o0.1) on 1 none
0 2 fork Putter (o0.1) on 2 none
2 0 call Pool$Put o0.1 (7) guard 0 none
0 3 call Pool$Take o0.1 () guard 1 7
"""
# A process reads until another has assigned.
SETTER = """0 0 make Cell o0.1 none
0 1 fork Setter (o0.1) on 1 none
0 2 call Cell$Value o0.1 () guard 0 0
1 0 call Cell$Assign o0.1 (1) guard 0 none
0 3 call Cell$Value o0.1 () guard 0 1
0 4 call Cell$Value o0.1 () guard 0 1
0 5 call Output$WriteLine o0.0 ("1") guard 0 none
"""
# The first process ends by a fault, which leaves the object as it was; the other reads 0.
OVERFLOW = """0 0 make Pair o0.1 none
0 1 fork Worker (o0.1) on 1 none
0 2 call Pair$Two o0.1 () guard 0 fault Overflow
1 0 call Pair$A o0.1 () guard 0 0
1 1 call Output$WriteLine o0.0 ("0") guard 0 none
"""
PAIR = """object specification Pair;
  operation Two();
  operation A(): integer;
end;
object implementation Pair;
  a, b: integer;
  operation Two(); begin a := 1; b := 9223372036854775807 + 1; end;
  operation A(): integer; begin return a; end;
end;
process Worker(c: shared Pair);
begin WriteLine(c$A()); end;
process OrcaMain();
  X: Pair;
begin fork Worker(X) on 1; X$Two(); WriteLine(9); end;
"""


def made_program(workers, rounds):
    """A history of the made program: workers add to a total and read it, one after the other, and then put their numbers in a pool."""
    lines, calls, total = [], [0] * (workers + 1), 0

    def did(process, what):
        lines.append(f"{process} {calls[process]} {what}\n")
        calls[process] += 1

    did(0, "make Total o0.1 none")
    did(0, "make Pool o0.2 none")
    for worker in range(1, workers + 1):
        did(0, f"fork Worker (o0.1 o0.2 {worker}) on {worker} none")
    for number in range(1, rounds + 1):
        for worker in range(1, workers + 1):
            total += worker * number
            did(worker, f"call Total$Add o0.1 ({worker * number}) guard 0 none")
            did(worker, f"call Total$Value o0.1 () guard 0 {total}")
    for worker in range(1, workers + 1):
        did(worker, f"call Pool$Put o0.2 ({worker}) guard 0 none")
        did(0, f"call Pool$Take o0.2 () guard 1 {worker}")
    did(0, f"call Total$Value o0.1 () guard 0 {total}")
    did(0, f'call Output$WriteLine o0.0 ("{total}") guard 0 none')
    return "".join(lines)


def loaded():
    """The script as a module, so that a test starts no process."""
    sys.dont_write_bytecode = True
    loader = importlib.machinery.SourceFileLoader("picture", PICTURE)
    module = importlib.util.module_from_spec(importlib.util.spec_from_loader("picture", loader))
    loader.exec_module(module)
    return module


picture_module = loaded()
Done = collections.namedtuple("Done", "stdout stderr returncode")


def run(words, text=""):
    """What the script prints and its status, as the system sees them."""
    given, told, wrong = (io.TextIOWrapper(io.BytesIO(it), "utf-8") for it in (text.encode(), b"", b""))
    status = 0
    with contextlib.redirect_stdout(told), contextlib.redirect_stderr(wrong), unittest.mock.patch.object(sys, "stdin", given):
        with unittest.mock.patch.object(sys, "argv", [PICTURE, *words]):
            try:
                picture_module.main()
            except SystemExit as end:
                status = end.code or 0
    if isinstance(status, str):
        wrong.write(status + "\n")
        status = 1
    told.flush(), wrong.flush()
    return Done(told.buffer.getvalue(), wrong.buffer.getvalue(), status)


class Drawn:
    """A picture as its parts."""

    def __init__(self, svg):
        self.root = tree.fromstring(svg)
        self.lines = {int(it.get("data-line")): it for it in self.having("g", "line")}

    def having(self, tag, style, within=None):
        found = (self.root if within is None else within).iter(SVG + tag)
        return [it for it in found if style in it.get("class", "").split()]

    def numbers(self):
        return list(self.lines)

    def x_y(self, sign):
        """The middle of a mark."""
        if sign.tag == SVG + "circle":
            return float(sign.get("cx")), float(sign.get("cy"))
        if sign.tag == SVG + "rect":
            return float(sign.get("x")) + 6, float(sign.get("y")) + 6
        x, y = map(float, re.match(r"M(\S+) (\S+?)l", sign.get("d")).groups())
        return (x, y + 7) if "fork" in sign.get("class") else (x + 6, y + 6)

    def marks(self, number):
        """The kinds and middles of a line's marks, from the left."""
        signs = [it for it in self.lines[number].iter() if "mark" in it.get("class", "").split()]
        return sorted((*self.x_y(it), it.get("class").replace("mark ", "")) for it in signs)

    def kinds(self):
        """What each line is drawn as at its process."""
        return [self.marks(it)[0][2] for it in self.lines]

    def rows(self):
        return {it: self.marks(it)[0][1] for it in self.lines}

    def life(self, style, name, value):
        """Where a line of a process or object stands, begins and ends."""
        (path,) = [it for it in self.having("path", style) if it.get(name) == str(value)]
        x, top, same, bottom = map(float, re.match(r"M(\S+) (\S+?)L(\S+) (\S+)$", path.get("d")).groups())
        assert x == same
        return x, top, bottom

    def process(self, number):
        return self.life("life", "data-process", number)

    def object(self, name):
        return self.life("stays", "data-object", name)

    def bars(self):
        return [(int(it.get("data-from")), int(it.get("data-to"))) for it in self.having("rect", "bar")]

    def arrows(self):
        """The number of a fork's line, and of the process that it began."""
        return [(number, int(it.get("data-child"))) for number, group in self.lines.items() for it in self.having("path", "arrow", group)]

    def texts(self, style="", within=None):
        found = (self.root if within is None else within).iter(SVG + "text")
        return ["".join(it.itertext()) for it in found if style in it.get("class")]

    def reply(self, number):
        return ["".join(it.itertext()) for it in self.having("tspan", "reply", self.lines[number])]

    def members(self):
        return [it for it in self.texts("quiet strong")]

    def entries(self):
        """Of each line above an entry that entry, and how many members surely applied it."""
        return [(int(it.get("data-entry")), len(self.having("path", "applied", it))) for it in self.having("g", "step")]

    def told(self):
        return self.root.find(SVG + "desc").text


class PictureTest(unittest.TestCase):
    def setUp(self):
        folder = tempfile.TemporaryDirectory()
        self.addCleanup(folder.cleanup)
        self.folder = folder.name

    def program(self, text):
        name = os.path.join(self.folder, f"{len(os.listdir(self.folder))}.orca")
        with open(name, "w", encoding="utf-8") as file:
            file.write(text)
        return name

    def drawn(self, history, *words):
        done = run([*words, "-"] if not words or words[0].startswith("-") else ["-", *words], history)
        self.assertEqual((done.stderr, done.returncode), (b"", 0))
        return Drawn(done.stdout)

    def refused(self, history, number, *words):
        """One line on standard error with the number of the first line that is none, nothing printed, status 1."""
        done = run(["-", *words], history)
        self.assertEqual((done.stdout, done.returncode), (b"", 1), history)
        self.assertRegex(done.stderr.decode(), rf"\Apicture: line {number} is no line of a history: [^\n]+\n\Z")


class WorkedHistories(PictureTest):
    def test_one_cell(self):
        picture = self.drawn(ONE_CELL, os.path.join(HOME, "examples", "one.orca"))
        self.assertEqual(picture.kinds(), ["make", "write", "read", "write"])
        self.assertEqual((picture.arrows(), picture.bars(), picture.members()), ([], [], ["member 0"]))
        self.assertEqual([picture.reply(it) for it in range(1, 5)], [[], [], ["→ 6"], []])
        rows = picture.rows()
        steps = {rows[it + 1] - rows[it] for it in range(1, 4)}
        self.assertEqual(len(steps), 1)
        self.assertGreater(min(steps), 0)
        x, top, bottom = picture.process(0)
        self.assertTrue(top < rows[1] and bottom == rows[4])
        self.assertEqual({picture.marks(it)[0][0] for it in range(1, 5)}, {x})
        self.assertEqual([picture.marks(it)[1][0] for it in range(1, 5)], [picture.object("o0.1")[0]] * 3 + [picture.object("o0.0")[0]])
        self.assertEqual(picture.object("o0.1")[1], rows[1])
        self.assertLess(picture.object("o0.0")[1], rows[1])
        self.assertEqual(picture.told(), "4 lines; time runs down")

    def test_without_its_program_a_call_is_a_read_or_a_write(self):
        self.assertEqual(self.drawn(ONE_CELL).kinds(), ["make", "call", "call", "write"])

    def test_nothing_is_judged_but_the_form(self):
        self.assertEqual(self.drawn(ONE_CELL.replace("0 6\n", "0 7\n")).reply(3), ["→ 7"])

    def test_one_take(self):
        picture = self.drawn(ONE_TAKE, os.path.join(PICTURES, "pool.orca"))
        rows = picture.rows()
        self.assertEqual(picture.kinds(), ["make", "fork", "write", "write"])
        self.assertEqual(picture.arrows(), [(2, 1)])
        self.assertEqual(picture.process(1)[1:], (rows[2], rows[3]))
        self.assertEqual(picture.bars(), [(2, 4)])
        (bar,) = picture.having("rect", "bar")
        top = float(bar.get("y"))
        self.assertTrue(rows[2] < top < rows[3] < top + float(bar.get("height")) < rows[4])
        self.assertEqual(float(bar.get("x")) + float(bar.get("width")) / 2, picture.process(0)[0])
        self.assertEqual((picture.reply(4), picture.texts("quiet", picture.lines[4])), (["→ 11"], ["guard 1"]))
        self.assertEqual(picture.members(), ["member 0", "on 1"])

    def test_two_takes(self):
        picture = self.drawn(TWO_TAKES, "--nodes", "3")
        self.assertEqual((picture.arrows(), picture.bars()), ([(2, 1), (3, 2)], [(3, 5)]))
        self.assertEqual(picture.members(), ["member 0", "member 1", "member 2"])

    def test_setter(self):
        picture = self.drawn(SETTER, os.path.join(HOME, "examples", "one.orca"), self.program("process Setter(c: shared Cell);"))
        self.assertEqual(picture.kinds(), ["make", "fork", "read", "write", "read", "read", "write"])
        self.assertEqual([picture.reply(it) for it in (3, 5, 6)], [["→ 0"], ["→ 1"], ["→ 1"]])
        self.assertEqual(picture.bars(), [])

    def test_overflow(self):
        picture = self.drawn(OVERFLOW, self.program(PAIR))
        self.assertEqual(picture.kinds(), ["make", "fork", "fault", "read", "write"])
        self.assertEqual(picture.reply(3), ["→ fault Overflow"])
        rows = picture.rows()
        self.assertEqual((picture.process(0)[2], picture.process(1)[2]), (rows[3], rows[5]))
        self.assertEqual(len([it for it in picture.having("path", "rest")]), 0)

    def test_empty(self):
        picture = self.drawn("")
        self.assertEqual((picture.numbers(), picture.told()), ([], "an empty history"))
        self.assertEqual(picture.members(), ["member 0"])

    def test_pool_of_three(self):
        """Three calls of Take stand behind a Put that their process hadn't seen. The first doesn't: its process forked behind that Put."""
        with open(os.path.join(PICTURES, "pool.history"), encoding="ascii") as file:
            history = file.read()
        picture = self.drawn(history, os.path.join(PICTURES, "pool.orca"))
        kinds = picture.kinds()
        self.assertEqual([kinds.count(it) for it in ("make", "fork", "write")], [1, 2, 9])
        self.assertEqual(picture.arrows(), [(2, 1), (4, 2)])
        self.assertEqual(picture.bars(), [(5, 7), (7, 9), (9, 11)])
        puts = [it for it in picture.lines if picture.texts("label", picture.lines[it])[0].startswith("Put")]
        self.assertEqual(puts, [3, 6, 8, 10])

    def test_large_run(self):
        """1,439 lines: 2 makes, 5 forks, 5 times 142 of Add and of Value, 5 of Put and of Take, and the last two. The main process forks
        for the last time in line 7, and its first Take is line 1,429."""
        history = made_program(5, 142)
        picture = self.drawn(history)
        self.assertEqual(picture.numbers(), list(range(1, 201)))
        self.assertEqual(picture.told(), "lines 1 to 200 of 1439; time runs down")
        picture = self.drawn(history, "--from", "1001", "--to", "1010", "--nodes", "5")
        self.assertEqual(picture.numbers(), list(range(1001, 1011)))
        self.assertEqual((picture.bars(), picture.arrows()), ([(7, 1429)], []))
        (bar,), rows = picture.having("rect", "bar"), picture.rows()
        self.assertTrue(float(bar.get("y")) < rows[1001] < rows[1010] < float(bar.get("y")) + float(bar.get("height")))
        picture = self.drawn(history, "--from", "1425")
        self.assertEqual(picture.numbers(), list(range(1425, 1440)))
        self.assertEqual(picture.bars(), [(7, 1429), (1429, 1431), (1431, 1433), (1433, 1435), (1435, 1437)])

    def test_the_pictures_in_docs(self):
        """The first is of an example, and its history is the one that docs/FORMATS.md has."""
        with open(os.path.join(PICTURES, "one.history"), encoding="ascii") as file:
            self.assertEqual(file.read(), ONE_CELL)
        words = ["--nodes", "2", "--title", "A read at an earlier view, with its places"]
        done = run([*words, os.path.join(PICTURES, "early.txt")])
        with open(os.path.join(PICTURES, "early.svg"), "rb") as file:
            self.assertEqual(done.stdout, file.read())
        for name, program in [("one", os.path.join(HOME, "examples", "one.orca")), ("pool", os.path.join(PICTURES, "pool.orca"))]:
            words = ["--nodes", "3", "--title", f"A run of {name}.orca on three members"]
            done = run([*words, os.path.join(PICTURES, f"{name}.history"), program])
            with open(os.path.join(PICTURES, f"{name}.svg"), "rb") as file:
                self.assertEqual(done.stdout, file.read())


class Places(PictureTest):
    def test_one_cell(self):
        """The read shows that member 0 applied two entries. Nothing shows that it applied the third: its process has no line behind it."""
        picture = self.drawn("6\n" + ONE_CELL + ONE_CELL_PLACES)
        self.assertEqual(picture.numbers(), [1, 2, 3, 4])
        self.assertEqual(picture.texts("place"), ["entry 1", "entry 2", "read at 2", "entry 3"])
        self.assertEqual(picture.entries(), [(1, 1), (2, 1), (3, 0)])
        self.assertIn("applied 2 or more", picture.texts("quiet"))

    def test_without_places_none_is_drawn(self):
        picture = self.drawn(ONE_CELL)
        self.assertEqual((picture.texts("place"), picture.entries()), ([], []))

    def test_the_output_may_look_like_places_and_lines(self):
        given = ONE_CELL_PLACES + ONE_CELL
        picture = self.drawn(given + ONE_CELL + ONE_CELL_PLACES + "orca: blocked: process 0 waits for Cell$Value\n")
        self.assertEqual((picture.numbers(), picture.entries()), ([1, 2, 3, 4], [(1, 1), (2, 1), (3, 0)]))

    def test_two_members(self):
        """Process 1 reads at 2 behind the assignment's entry, and at 4: so its member applied four entries, and member 0 at least two."""
        with open(os.path.join(PICTURES, "early.txt"), encoding="ascii") as file:
            text = file.read()
        picture = self.drawn(text, "--nodes", "2")
        self.assertEqual(picture.entries(), [(1, 2), (2, 2), (3, 1), (4, 1)])
        self.assertEqual([it for it in picture.texts("quiet") if it.startswith("applied")], ["applied 2 or more", "applied 4 or more"])
        self.assertEqual(self.drawn(text, "--nodes", "2", "--from", "4").entries(), [(3, 1), (4, 1)])

    def test_a_call_on_a_single_copy(self):
        """Its place says what its owner had applied, and the line behind it that its process's member did so too."""
        lines = "0 0 make Cell o0.1 none\n0 1 call Cell$Assign o0.1 (6) guard 0 none\n0 2 call Cell$Value o0.1 () guard 0 6\n"
        picture = self.drawn(lines + "0 0 entry 1\n0 1 single at 1\n0 2 single at 1\n")
        self.assertEqual((picture.texts("place"), picture.entries()), (["entry 1", "single at 1", "single at 1"], [(1, 1)]))

    def test_entries_without_a_line(self):
        """Of the third entry the call is suspended, and the fourth lets it go."""
        places = "0 0 entry 1\n0 1 entry 2\n1 0 entry 4\n0 2 entry 4\n"
        picture = self.drawn(ONE_TAKE + places)
        self.assertEqual([it for it, _ in picture.entries()], [1, 2, 4])
        self.assertEqual([it.find(SVG + "title").text for it in picture.having("g", "step")], ["entry 1", "entry 2", "entries 3 to 4"])

    def test_refused(self):
        """A place of another call; places that fall, and an entry's behind a read at it; and more places than lines."""
        self.refused("6\n" + ONE_CELL + ONE_CELL_PLACES.replace("0 1 entry", "0 7 entry"), 7)
        self.refused(ONE_CELL + ONE_CELL_PLACES.replace("read at 2", "read at 1"), 7)
        self.refused(ONE_CELL + ONE_CELL_PLACES.replace("entry 3", "entry 2"), 8)
        self.refused(ONE_CELL_PLACES, 4)
        self.refused("6\n" + ONE_CELL.replace("0 2 call", "0 3 call") + ONE_CELL_PLACES, 4)


class Members(PictureTest):
    FORKS = "".join(f"0 {it} fork P () on {where} none\n" for it, where in enumerate(["5", "-1", "parent", "3"]))
    FORKS += "1 0 fork P () on parent none\n"

    def test_a_member_is_the_remainder(self):
        """Of three members 5 and -1 are 2, and 3 is 0; a process without a number is where its parent is."""
        picture = self.drawn(self.FORKS, "--nodes", "3")
        self.assertEqual(picture.members(), ["member 0", "member 2"])
        across = sorted(range(6), key=lambda it: picture.process(it)[0])
        self.assertEqual(across, [0, 3, 4, 1, 2, 5])

    def test_without_a_number_of_members_what_is_told_stands_there(self):
        picture = self.drawn(self.FORKS)
        self.assertEqual(picture.members(), ["on -1", "member 0", "on 3", "on 5"])
        across = sorted(range(6), key=lambda it: picture.process(it)[0])
        self.assertEqual(across, [2, 0, 3, 4, 1, 5])


class Suspended(PictureTest):
    """A suspended write runs in the entry of the change that let it go: directly behind that, or behind others on the object that were
    suspended too. A read that waited is performed behind that entry, where reads alone may stand between."""

    PROGRAM = """object specification K;
      operation Set(); operation Take(); operation Await(); operation Look();
    end;
    object implementation K;
      x: integer;
      operation Set(); begin x := 1; end;
      operation Take(); begin guard x = 1 do x := 0; od; end;
      operation Await(); begin guard x = 1 do od; end;
      operation Look(); begin end;
    end;
    process P();
    """

    def bars(self, *acts, known=True):
        """The bars behind two makes and two forks, lines 1 to 4; an act is a process, an operation, an object, and its guard."""
        calls = [4, 0, 0]
        lines = ["0 0 make K o0.1 none\n", "0 1 make K o0.2 none\n", "0 2 fork P () on 1 none\n", "0 3 fork P () on 2 none\n"]
        for process, what, *more in acts:
            head = f"{process} {calls[process]} "
            calls[process] += 1
            reply = more[2] if len(more) > 2 else "none"
            lines.append(head + (what if " " in what else f"call K${what} {more[0]} () guard {more[1]} {reply}") + "\n")
        return self.drawn("".join(lines), *([self.program(self.PROGRAM)] if known else [])).bars()

    def test_directly_behind_a_change(self):
        self.assertEqual(self.bars((1, "Set", "o0.1", 0), (0, "Take", "o0.1", 1)), [(4, 6)])

    def test_two_in_one_entry(self):
        acts = (0, "Set", "o0.1", 0), (1, "Take", "o0.1", 1), (2, "Await", "o0.1", 1)
        self.assertEqual(self.bars(*acts), [(3, 6), (4, 7)])

    def test_not_without_a_guard(self):
        self.assertEqual(self.bars((1, "Set", "o0.1", 0), (0, "Set", "o0.1", 0)), [])

    def test_not_behind_ones_own_change(self):
        self.assertEqual(self.bars((1, "Set", "o0.1", 0), (1, "Take", "o0.1", 1)), [])

    def test_not_behind_what_ones_process_saw(self):
        self.assertEqual(self.bars((1, "Set", "o0.1", 0), (0, "Look", "o0.2", 0), (0, "Take", "o0.1", 1)), [])

    def test_not_behind_a_change_of_another_object(self):
        self.assertEqual(self.bars((1, "Set", "o0.2", 0), (0, "Take", "o0.1", 1)), [])

    def test_not_behind_a_read(self):
        self.assertEqual(self.bars((1, "Look", "o0.1", 0), (0, "Take", "o0.1", 1)), [])
        self.assertEqual(self.bars((1, "Look", "o0.1", 0), (0, "Await", "o0.1", 1)), [])

    def test_not_behind_a_fault(self):
        self.assertEqual(self.bars((1, "Set", "o0.1", 0, "fault TooLong"), (0, "Take", "o0.1", 1)), [])

    def test_behind_a_fault_of_another_that_was_suspended(self):
        acts = (1, "Set", "o0.1", 0), (2, "Take", "o0.1", 1, "fault TooLong"), (0, "Take", "o0.1", 1)
        self.assertEqual(self.bars(*acts), [(4, 6), (4, 7)])

    def test_not_behind_a_fault_that_stands_apart_from_the_change(self):
        acts = (1, "Set", "o0.1", 0), (2, "Set", "o0.2", 0), (1, "Take", "o0.1", 1, "fault TooLong"), (0, "Take", "o0.1", 1)
        self.assertEqual(self.bars(*acts), [])

    def test_a_write_not_behind_a_read_that_stands_between(self):
        self.assertEqual(self.bars((1, "Set", "o0.1", 0), (2, "Look", "o0.1", 0), (0, "Take", "o0.1", 1)), [])

    def test_a_read_behind_a_read_that_stands_between(self):
        self.assertEqual(self.bars((1, "Set", "o0.1", 0), (2, "Look", "o0.2", 0), (0, "Await", "o0.1", 1)), [(4, 7)])

    def test_not_where_another_entry_stands_between(self):
        acts = (1, "Set", "o0.1", 0), (2, "fork P () on 0 none"), (0, "Await", "o0.1", 1)
        self.assertEqual(self.bars(*acts), [])
        self.assertEqual(self.bars(*acts, known=False), [])

    def test_without_the_program_what_stands_between_may_be_a_read(self):
        acts = (1, "Set", "o0.1", 0), (2, "Look", "o0.2", 0), (0, "Take", "o0.1", 1)
        self.assertEqual((self.bars(*acts), self.bars(*acts, known=False)), ([], [(4, 7)]))


class ReadsAndWrites(PictureTest):
    """An operation is a write where a field is changed in it: by an assignment, insert, delete or from, as an argument for out, or as the
    graph of addnode or deletenode."""

    PROGRAM = """# operation Ghost(); begin x := 1; end;
    type R = record f: integer; g: array [1..2] of integer; end;
    function Inc(about: integer; n: out integer; m: integer); begin n := about; end;
    object specification S; operation Write01(); end;
    object implementation S;
      x, y: integer;
      r: array [1..3] of R;
      s: set of integer;
      c: array [1..graph] of R;
      operation Write01(); begin x := 1; end;
      operation Write02(); begin if y = 0 then r[x].f := 2; fi; end;
      operation Write03(); begin r[r[1].g[2]].g[x + 1] := 2; end;
      operation Write04(); begin insert(1, s); end;
      operation Write05(); begin delete(y, s); end;
      operation Write06(): integer; n: integer; begin n := 1 + from(s); return n; end;
      operation Write07(); begin guard y > 0 do y := 0; od; end;
      operation Write08(); begin Inc((1), y, 2); end;
      operation Write09(); n: nodename; begin n := addnode(c); end;
      operation Write10(); begin deletenode(nil, c); end;
      operation Read01(): integer; begin return x; end;
      operation Read02(v: integer): integer; n: integer; begin n := x; v := n + y; return v; end;
      operation Read03(): integer; t: set of integer; begin insert(x, t); delete(y, t); return from(t); end;
      operation Read04(); n: integer; begin Inc(x, n, y); end;
      operation Read05(): string; begin return "x := 1; from(s)"; end;
      operation Read06(); d: array [1..graph] of R; n: nodename; begin n := addnode(d); deletenode(n, d); end;
      operation Read07(); q: array [1..3] of integer; begin q[x] := y; for i in 1..x do q[i] := 0; od; end;
      operation Read08(); begin guard size(s) > 0 do od; end;
    begin x := 0; y := 1; end;
    """

    def test_each(self):
        names = [f"Write{it:02}" for it in range(1, 11)] + [f"Read{it:02}" for it in range(1, 9)]
        calls = "".join(f"0 {call} call S${name} o0.1 () guard 0 none\n" for call, name in enumerate(names, 1))
        picture = self.drawn("0 0 make S o0.1 none\n" + calls, self.program(self.PROGRAM))
        self.assertEqual(picture.kinds(), ["make"] + ["write"] * 10 + ["read"] * 8)

    def test_names_that_the_program_lacks(self):
        for line in ("0 0 make T o0.1 none\n", "0 0 fork Q () on 1 none\n"):
            self.refused(line, 1, self.program(self.PROGRAM))
        self.refused("0 0 make S o0.1 none\n0 1 call S$Ghost o0.1 () guard 0 none\n", 2, self.program(self.PROGRAM))


# None of these is the second line of a history of one cell, nor of any.
CHANGED_LINES = [
    "0 1 call",
    "0 1 call ",
    "0 1 call Cell$Assign o0.1 (6) guard 0",
    "0 1 call Cell$Assign o0.1 (6) guard 0 ",
    "0 1 call Cell$Assign o0.1 (6) guard 0 none ",
    "0 1 call Cell$Assign o0.1 (6) guard 0 none\r",
    " 0 1 call Cell$Assign o0.1 (6) guard 0 none",
    "0  1 call Cell$Assign o0.1 (6) guard 0 none",
    "0 1 Call Cell$Assign o0.1 (6) guard 0 none",
    "0 01 call Cell$Assign o0.1 (6) guard 0 none",
    "+0 1 call Cell$Assign o0.1 (6) guard 0 none",
    "0 1 call Cell$Assign o0.1 (6) guard 00 none",
    "0 1 call Cell$Assign o0.1 (6) guard 65536 none",
    "0 1 call Cell$Assign o0.1 (6 ) guard 0 none",
    "0 1 call Cell$Assign o0.1 ( 6) guard 0 none",
    "0 1 call Cell$Assign o0.1 (6  6) guard 0 none",
    "0 1 call Cell$Assign o0.1 (6,6) guard 0 none",
    "0 1 call Cell$Assign o0.1 [6] guard 0 none",
    "0 1 call Cell.Assign o0.1 (6) guard 0 none",
    "0 1 call Cell$2 o0.1 (6) guard 0 none",
    "0 1 call Cell$end o0.1 (6) guard 0 none",
    "0 1 call Cell$Assign o0.01 (6) guard 0 none",
    "0 1 call Cell$Assign 0.1 (6) guard 0 none",
    "0 1 call Cell$Assign o0.1 (6) guard 0 fault",
    "0 1 call Cell$Assign o0.1 (6) guard 0 fault Unknown",
    "0 1 call Cell$Assign o0.1 (6) guard 0 fault Overflow 1",
    "0 1 call Output$Assign o0.0 (6) guard 0 none",
    "0 1 fork P () on none",
    "0 1 fork P () on 01 none",
    "0 1 fork P () on -0 none",
    "0 1 fork P () on 9223372036854775808 none",
    "0 1 fork P on 1 none",
    "0 1 fork process () on 1 none",
    "0 1 make Cell o0.2",
    "0 1 make Cell o65536.2 none",
    "0 1 make Cell o0.4294967296 none",
    "",
    "é",
    "\0",
]


class Refusals(PictureTest):
    def test_cut_at_every_byte(self):
        """A front of a history is one where it ends behind a line; else the line that is cut is the first that is none."""
        for end in range(len(ONE_TAKE)):
            front = ONE_TAKE[:end]
            if not front or front.endswith("\n"):
                self.assertEqual(len(self.drawn(front).lines), front.count("\n"))
            else:
                self.refused(front, front.count("\n") + 1)

    def test_changed_lines(self):
        for changed in CHANGED_LINES:
            with self.subTest(changed):
                self.refused(ONE_CELL.replace("0 1 call Cell$Assign o0.1 (6) guard 0 none", changed), 2)

    def test_lines_that_no_run_has_there(self):
        for line in [
            "1 0 call Cell$Value o0.1 () guard 0 6",
            "0 1 call Cell$Value o0.1 () guard 0 6",
            "0 3 call Cell$Value o0.1 () guard 0 6",
            "0 2 call Cell$Value o0.2 () guard 0 6",
            "0 2 call Pool$Value o0.1 () guard 0 6",
            "0 2 make Cell o0.1 none",
        ]:
            with self.subTest(line):
                self.refused(ONE_CELL.replace("0 2 call Cell$Value o0.1 () guard 0 6", line), 3)
        self.refused(OVERFLOW + "0 3 make Pair o0.2 none\n", 6)
        self.refused("0 0 make Pair o0.1 fault TooLong\n0 1 call Output$WriteLine o0.0 (\"\") guard 0 none\n", 2)

    def test_a_making_that_faults_leaves_no_object(self):
        picture = self.drawn("0 0 make Cell o0.1 fault TooLong\n")
        self.assertEqual(picture.kinds(), ["fault"])
        self.assertEqual(picture.having("path", "stays"), [])

    def test_values(self):
        within = "0 0 call Output$WriteLine o0.0 ({}) guard 0 none\n"
        for value in [
            "0", "-1", "9223372036854775807", "-9223372036854775808", "true", "false", "c0", "c127", "e0", "e65535", '""', r'"\n\t\\\""',
            r'"\x00\x1f\x7f\x0b"', '"a b)"', "[]", "()", "{}", "<>", "[1 [2] ()]", "{1 2}", "{c1 c2}", '{"" "a" "ab" "b"}', "<1 1 2>",
            "{-1 0}", "{false true}", "{[1] [1 1] [2]}", "o65535.4294967295", "{o0.9 o1.0}", "(2 {(1 (7 0))})", "[" * 15 + "1" + "]" * 15,
            "[" * 16 + "]" * 16, r'{"\x00" "\t" "\n" "!" "\"" "#" "Z" "\\" "a" "\x7f"}',
        ]:  # fmt: skip
            with self.subTest(value):
                self.assertEqual(len(self.drawn(within.format(value)).lines), 1)
        for value in [
            "00", "-0", "+1", "1.5", "9223372036854775808", "-9223372036854775809", "1" * 5000, "True", "c128", "c01", "c", "e65536", "'a'",
            '"', '"\\"', '"a', r'"\a"', r'"\x0a"', r'"\x09"', r'"\x41"', r'"\x22"', r'"\x1F"', r'"\x80"', "[1,2]", "[1 2", "(1]", "[1  2]",
            "[ ]", "{2 1}", "{1 1}", "<2 1>", "{true false}", '{"b" "ab"}', r'{"Z" "\n"}', "{[1 1] [1]}", "{o1.0 o0.9}", "o0", "o65536.0",
            "o0.4294967296", "[" * 16 + "1" + "]" * 16, "[" * 17 + "]" * 17, "[" * 100000,
        ]:  # fmt: skip
            with self.subTest(value[:40]):
                self.refused(within.format(value), 1)

    def test_other_answers(self):
        done = run([os.path.join(self.folder, "none")])
        self.assertEqual((done.stdout, done.returncode, done.stderr.count(b"\n")), (b"", 1, 1))
        done = run(["--from", "5", "-"], ONE_CELL)
        self.assertEqual((done.stdout, done.returncode, done.stderr), (b"", 1, b"picture: the history has 4 lines\n"))
        for words in ([], ["--nodes", "0", "-"], ["--nodes", "17", "-"], ["--from", "0", "-"], ["--from", "2", "--to", "1", "-"]):
            self.assertEqual(run(words, ONE_CELL).returncode, 2)
        self.assertEqual(run(["--help"]).returncode, 0)


class Texts(PictureTest):
    def test_what_marks_mean_in_xml_is_escaped(self):
        picture = self.drawn('0 0 call Output$WriteLine o0.0 ("<b>&\'\\"") guard 0 none\n', "--title", "<i> & \x1b")
        self.assertEqual(picture.texts("label"), ["WriteLine(\"<b>&'\\\"\")"])
        self.assertEqual(picture.texts("title"), ["<i> & ?"])

    def test_the_script_as_it_is_started(self):
        done = subprocess.run([PICTURE, "-"], input=ONE_TAKE.encode(), capture_output=True, check=False)
        self.assertEqual((done.returncode, done.stderr, done.stdout), (0, b"", run(["-"], ONE_TAKE).stdout))
        done = subprocess.run([PICTURE, "-"], input=ONE_TAKE.encode()[:-1], capture_output=True, check=False)
        self.assertEqual((done.returncode, done.stderr, done.stdout), (1, run(["-"], ONE_TAKE[:-1]).stderr, b""))

    def test_long_ones_are_cut(self):
        picture = self.drawn(f"0 0 make {'K' * 100000} o0.1 none\n")
        self.assertTrue(all(len(it) < 100 for it in picture.texts()))
        self.assertLess(float(picture.root.get("width")), 2000)

    def test_the_legend_has_what_is_drawn(self):
        (legend,) = self.drawn(ONE_TAKE).having("g", "legend")
        texts = ["".join(it.itertext()) for it in legend.iter(SVG + "text")]
        self.assertEqual(
            texts, ["make of an object", "fork of a process", "call, a read or a write", "suspended, so long at most", "no further line"]
        )


if __name__ == "__main__":
    unittest.main()
