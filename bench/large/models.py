#!/usr/bin/env python3
"""Works out what the programs of this folder write, by other means: models.py [NAME=NUMBER..] NAME.

A number in place of a constant of the program, as TOWNS=6, has the same model at another size."""
import functools
import itertools
import sys

SIZES = {"TOWNS": 12, "PLACES": 100, "SIDE": 60, "ROUNDS": None, "VARIABLES": 20, "VALUES": 40, "JOBS": 200, "EACH": 100, "PRODUCERS": 3}


def size(name, usual=None):
    return SIZES.get(name) or usual


def salesman():
    """The shortest round trip, by Held's and Karp's dynamic programming over sets of towns."""
    count = size("TOWNS")
    towns = [((n * 37) % 101, (n * 53) % 97) for n in range(1, count + 1)]
    apart = lambda a, b: abs(towns[a][0] - towns[b][0]) + abs(towns[a][1] - towns[b][1])
    best = {(1 << t, t): apart(0, t) for t in range(1, count)}
    for many in range(2, count):
        for chosen in itertools.combinations(range(1, count), many):
            bits = sum(1 << t for t in chosen)
            for last in chosen:
                best[bits, last] = min(best[bits & ~(1 << last), t] + apart(t, last) for t in chosen if t != last)
    every = sum(1 << t for t in range(1, count))
    yield f"shortest trip {min(best[every, t] + apart(t, 0) for t in range(1, count))}"


def paths():
    """All shortest paths, by Dijkstra's algorithm from each place."""
    import heapq

    count = size("PLACES")
    lengths = []
    for start in range(1, count + 1):
        known, heap = {}, [(0, start)]
        while heap:
            far, at = heapq.heappop(heap)
            if at in known:
                continue
            known[at] = far
            for to in range(1, count + 1):
                if to != at and (at * 7 + to * 13) % 17 == 0:
                    heapq.heappush(heap, (far + (at * 31 + to * 11) % 50 + 1, to))
        lengths += known.values()
    yield f"pairs {len(lengths)}"
    yield f"sum {sum(lengths)}"
    yield f"greatest {max(lengths)}"


def cut(number, by):
    """A quotient that is cut toward zero, as Orca's is."""
    return abs(number) // by if number >= 0 else -(abs(number) // by)


def relaxation():
    """The whole plate at once, row by row."""
    side, rounds, share = size("SIDE"), size("ROUNDS", 10), size("SIDE") // 3
    plate = [[1000 if j == 0 and 1 <= i <= side else 0 for j in range(side + 2)] for i in range(side + 2)]
    for half in [0, 1] * rounds:
        for i in range(1, side + 1):
            for j in range(1, side + 1):
                if (i + j) % 2 == half:
                    mean = cut(plate[i - 1][j] + plate[i + 1][j] + plate[i][j - 1] + plate[i][j + 1], 4)
                    plate[i][j] += cut((mean - plate[i][j]) * 3, 2)
    for worker in range(1, 4):
        rows = plate[(worker - 1) * share + 1 : worker * share + 1]
        yield f"rows of worker {worker}: {sum(sum(row[1 : side + 1]) for row in rows)}"


def consistency():
    """The greatest domains in which each value has support, by removing values until nothing changes."""
    count, values = size("VARIABLES"), size("VALUES")
    arcs = [(n, n + 1, n % 3, n % 3 + 2) for n in range(1, count)] + [(n, n + 5, 6, 9 + n % 2) for n in range(1, count - 4)]
    left = {n: set(range(1, values + 1)) for n in range(1, count + 1)}
    changed = True
    while changed:
        changed = False
        for one, other, least, most in arcs:
            for at, by, low, high in ((one, other, least, most), (other, one, -most, -least)):
                gone = {v for v in left[at] if not any(low <= w - v <= high for w in left[by])}
                changed = changed or bool(gone)
                left[at] -= gone
    for n in range(1, count + 1):
        yield f"variable {n}: {len(left[n])} values from {min(left[n])}" if left[n] else f"variable {n} has no value"


def search():
    """What each first move is worth, by a search without a table."""
    lines = [(0, 1, 2), (3, 4, 5), (6, 7, 8), (0, 3, 6), (1, 4, 7), (2, 5, 8), (0, 4, 8), (2, 4, 6)]

    @functools.lru_cache(None)
    def worth(board, mover):
        if any(all(board[cell] == 3 - mover for cell in line) for line in lines):
            return -1
        free = [cell for cell in range(9) if board[cell] == 0]
        return max((-worth(board[:cell] + (mover,) + board[cell + 1 :], 3 - mover) for cell in free), default=0)

    for move in range(9):
        yield f"move {move}: {-worth((0,) * move + (1,) + (0,) * (8 - move), 2)}"


def buffer():
    yield f"sum {sum(producer * 1000 + k for producer in range(1, size('PRODUCERS') + 1) for k in range(size('EACH')))}"


def barrier():
    values = [1, 2, 3]
    for _ in range(size("ROUNDS", 50)):
        values = [(values[n] + values[(n + 1) % 3]) % 1000003 for n in range(3)]
    for n in range(3):
        yield f"{n}: {values[n]}"


def jobs():
    def steps(number):
        return 0 if number == 1 else 1 + steps(number // 2 if number % 2 == 0 else 3 * number + 1)

    all_steps = [steps(job) for job in range(1, size("JOBS") + 1)]
    yield f"most steps {max(all_steps)}"
    yield f"all steps {sum(all_steps)}"


def main():
    for word in sys.argv[1:-1]:
        name, number = word.split("=")
        SIZES[name] = int(number)
    print("\n".join({f.__name__: f for f in (salesman, paths, relaxation, consistency, search, buffer, barrier, jobs)}[sys.argv[-1]]()))


main()
