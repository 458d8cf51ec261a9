"""The works of bench/machine: each a program of one member in Orca, in Lua and in Python, where SIZE stands for its size."""
from dataclasses import dataclass


@dataclass
class Work:
    """A work, its size and a tenth of it or less, and its text in each language, by the ending of its file."""

    name: str
    size: int
    quick: int
    texts: dict


EMPTY = {"orca": "process OrcaMain(); begin end;\n", "lua": "", "python": ""}

SUM = Work("sum", 2_000_000, 200_000, {
    "orca": """process OrcaMain();
  s: integer;
begin
  for i in 1..SIZE do s := s + i; od;
  WriteLine(s);
end;
""",
    "lua": """local s = 0
for i = 1, SIZE do s = s + i end
print(s)
""",
    "python": """def work():
    s = 0
    for i in range(1, SIZE + 1):
        s = s + i
    print(s)
work()
""",
})

SIEVE = Work("sieve", 30, 3, {
    "orca": """process OrcaMain();
  crossed: array [2..9000] of boolean;
  at, count: integer;
begin
  for round in 1..SIZE do
    for i in 2..9000 do crossed[i] := false; od;
    for i in 2..94 do
      if not crossed[i] then
        at := i * i;
        while at <= 9000 do crossed[at] := true; at := at + i; od;
      fi;
    od;
    for i in 2..9000 do
      if not crossed[i] then count := count + 1; fi;
    od;
  od;
  WriteLine(count);
end;
""",
    "lua": """local crossed, at, count = {}, 0, 0
for round = 1, SIZE do
  for i = 2, 9000 do crossed[i] = false end
  for i = 2, 94 do
    if not crossed[i] then
      at = i * i
      while at <= 9000 do crossed[at] = true; at = at + i end
    end
  end
  for i = 2, 9000 do
    if not crossed[i] then count = count + 1 end
  end
end
print(count)
""",
    "python": """def work():
    crossed, at, count = [False] * 9001, 0, 0
    for round in range(1, SIZE + 1):
        for i in range(2, 9001):
            crossed[i] = False
        for i in range(2, 95):
            if not crossed[i]:
                at = i * i
                while at <= 9000:
                    crossed[at] = True
                    at = at + i
        for i in range(2, 9001):
            if not crossed[i]:
                count = count + 1
    print(count)
work()
""",
})

CALLS = Work("calls", 300_000, 30_000, {
    "orca": """function More(x: integer): integer;
begin
  return x + 1;
end;
process OrcaMain();
  s: integer;
begin
  for i in 1..SIZE do s := More(More(More(i))); od;
  WriteLine(s);
end;
""",
    "lua": """local function more(x) return x + 1 end
local s = 0
for i = 1, SIZE do s = more(more(more(i))) end
print(s)
""",
    "python": """def more(x):
    return x + 1
def work():
    s = 0
    for i in range(1, SIZE + 1):
        s = more(more(more(i)))
    print(s)
work()
""",
})

FIB = Work("fib", 24, 19, {
    "orca": """function Fib(n: integer): integer;
begin
  if n < 2 then return n; fi;
  return Fib(n - 1) + Fib(n - 2);
end;
process OrcaMain();
begin
  WriteLine(Fib(SIZE));
end;
""",
    "lua": """local function fib(n) if n < 2 then return n end return fib(n - 1) + fib(n - 2) end
print(fib(SIZE))
""",
    "python": """def fib(n):
    if n < 2:
        return n
    return fib(n - 1) + fib(n - 2)
print(fib(SIZE))
""",
})

RECORDS = Work("records", 300_000, 30_000, {
    "orca": """type Point = record x: integer; y: integer; end;
process OrcaMain();
  row: array [1..100] of Point;
  at: integer;
begin
  for k in 1..SIZE do
    at := k % 100 + 1;
    row[at].x := row[at].x + k;
    row[at].y := row[at].y + row[at].x;
  od;
  WriteLine(row[1].x + row[100].y);
end;
""",
    "lua": """local row = {}
for k = 1, 100 do row[k] = { x = 0, y = 0 } end
local at
for k = 1, SIZE do
  at = k % 100 + 1
  row[at].x = row[at].x + k
  row[at].y = row[at].y + row[at].x
end
print(row[1].x + row[100].y)
""",
    "python": """class Point:
    __slots__ = ("x", "y")
    def __init__(self):
        self.x = self.y = 0
def work():
    row = [Point() for _ in range(101)]
    for k in range(1, SIZE + 1):
        at = k % 100 + 1
        row[at].x = row[at].x + k
        row[at].y = row[at].y + row[at].x
    print(row[1].x + row[100].y)
work()
""",
})

STRING = Work("string", 40, 4, {
    "orca": """process OrcaMain();
  text: string;
begin
  for round in 1..SIZE do
    text := "";
    for k in 1..5000 do text := text & "x"; od;
  od;
  WriteLine(size(text));
end;
""",
    "lua": """local text
for round = 1, SIZE do
  text = ""
  for k = 1, 5000 do text = text .. "x" end
end
print(#text)
""",
    "python": """def work():
    for round in range(1, SIZE + 1):
        text = ""
        for k in range(1, 5001):
            text = text + "x"
    print(len(text))
work()
""",
})

SEARCH = Work("search", 8, 7, {
    "orca": """object specification Board;
  operation IsFree(row: integer; column: integer): boolean;
  operation Put(row: integer; column: integer; queen: boolean);
end;
object implementation Board;
  columns, rises, falls: array [-9..18] of boolean;
  operation IsFree(row: integer; column: integer): boolean;
  begin
    return not (columns[column] or rises[row + column] or falls[row - column]);
  end;
  operation Put(row: integer; column: integer; queen: boolean);
  begin
    columns[column] := queen;
    rises[row + column] := queen;
    falls[row - column] := queen;
  end;
end;
function Found(board: shared Board; row: integer): integer;
  count: integer;
begin
  if row > SIZE then return 1; fi;
  for column in 1..SIZE do
    if board$IsFree(row, column) then
      board$Put(row, column, true);
      count := count + Found(board, row + 1);
      board$Put(row, column, false);
    fi;
  od;
  return count;
end;
process OrcaMain();
  board: Board;
begin
  WriteLine(Found(board, 1));
end;
""",
    "lua": """local board = { columns = {}, rises = {}, falls = {} }
function board:is_free(row, column)
  return not (self.columns[column] or self.rises[row + column] or self.falls[row - column])
end
function board:put(row, column, queen)
  self.columns[column] = queen
  self.rises[row + column] = queen
  self.falls[row - column] = queen
end
for k = -9, 18 do board.columns[k] = false; board.rises[k] = false; board.falls[k] = false end
local function found(board, row)
  if row > SIZE then return 1 end
  local count = 0
  for column = 1, SIZE do
    if board:is_free(row, column) then
      board:put(row, column, true)
      count = count + found(board, row + 1)
      board:put(row, column, false)
    end
  end
  return count
end
print(found(board, 1))
""",
    "python": """class Board:
    def __init__(self):
        self.columns, self.rises, self.falls = [False] * 28, [False] * 28, [False] * 28
    def is_free(self, row, column):
        return not (self.columns[column] or self.rises[row + column] or self.falls[row - column + 9])
    def put(self, row, column, queen):
        self.columns[column] = queen
        self.rises[row + column] = queen
        self.falls[row - column + 9] = queen
def found(board, row):
    if row > SIZE:
        return 1
    count = 0
    for column in range(1, SIZE + 1):
        if board.is_free(row, column):
            board.put(row, column, True)
            count = count + found(board, row + 1)
            board.put(row, column, False)
    return count
print(found(Board(), 1))
""",
})

GUARDS = Work("guards", 50_000, 5_000, {
    "orca": """object specification Cell;
  operation Put(v: integer);
  operation Take(): integer;
end;
object implementation Cell;
  full: boolean;
  value: integer;
  operation Put(v: integer); begin guard not full do value := v; full := true; od; end;
  operation Take(): integer; begin guard full do full := false; return value; od; end;
end;
process OrcaMain();
  cell: Cell;
  sum: integer;
begin
  for k in 1..SIZE do
    cell$Put(k);
    sum := sum + cell$Take();
  od;
  WriteLine(sum);
end;
""",
    "lua": """local cell = { full = false, value = 0 }
function cell:put(v) assert(not self.full); self.value = v; self.full = true end
function cell:take() assert(self.full); self.full = false; return self.value end
local sum = 0
for k = 1, SIZE do
  cell:put(k)
  sum = sum + cell:take()
end
print(sum)
""",
    "python": """class Cell:
    def __init__(self):
        self.full, self.value = False, 0
    def put(self, v):
        assert not self.full
        self.value = v
        self.full = True
    def take(self):
        assert self.full
        self.full = False
        return self.value
def work():
    cell, sum = Cell(), 0
    for k in range(1, SIZE + 1):
        cell.put(k)
        sum = sum + cell.take()
    print(sum)
work()
""",
})

OBJECT = Work("object", 9_000, 900, {
    "orca": """object specification Numbers;
  operation Put(at: integer; v: integer);
  operation Sum(): integer;
end;
object implementation Numbers;
  values: array [1..9000] of integer;
  operation Put(at: integer; v: integer); begin values[at] := v; end;
  operation Sum(): integer;
    sum: integer;
  begin
    for k in 1..9000 do sum := sum + values[k]; od;
    return sum;
  end;
end;
process OrcaMain();
  numbers: Numbers;
begin
  for k in 1..SIZE do numbers$Put(k, 2 * k); od;
  WriteLine(numbers$Sum());
end;
""",
    "lua": """local numbers = { values = {} }
for k = 1, 9000 do numbers.values[k] = 0 end
function numbers:put(at, v) self.values[at] = v end
function numbers:sum()
  local sum = 0
  for k = 1, 9000 do sum = sum + self.values[k] end
  return sum
end
for k = 1, SIZE do numbers:put(k, 2 * k) end
print(numbers:sum())
""",
    "python": """class Numbers:
    def __init__(self):
        self.values = [0] * 9001
    def put(self, at, v):
        self.values[at] = v
    def sum(self):
        sum = 0
        for k in range(1, 9001):
            sum = sum + self.values[k]
        return sum
def work():
    numbers = Numbers()
    for k in range(1, SIZE + 1):
        numbers.put(k, 2 * k)
    print(numbers.sum())
work()
""",
})

WORKS = (SUM, SIEVE, CALLS, FIB, RECORDS, STRING, SEARCH, GUARDS, OBJECT)
