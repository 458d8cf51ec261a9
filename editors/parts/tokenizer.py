"""Colours a text by a TextMate grammar, as an editor does: of the rules that match first on the rest of a line, the first is taken.

It knows what the grammar of Orca uses: `match` with `captures`, `begin` with `end` and `patterns`, and `include` of the repository. It
refuses all else. The grammar's expressions mean the same in Python as in the editors."""
import re

KNOWN = [{"match", "name"}, {"match", "captures"}, {"match", "name", "captures"}, {"begin", "end", "name", "patterns"}]


class Rule:
    """A rule of the grammar."""

    def __init__(self, row):
        if set(row) not in KNOWN:
            raise ValueError(f"a rule of another form: {row}")
        self.name = row.get("name")
        self.first = re.compile(row.get("match") or row["begin"])
        self.end = re.compile(row["end"]) if "end" in row else None
        self.inner = [Rule(inner) for inner in row.get("patterns", [])]
        self.captures = {int(number): capture["name"] for number, capture in row.get("captures", {}).items()}


class Tokenizer:
    """The rules of a grammar."""

    def __init__(self, grammar):
        included = [pattern["include"].removeprefix("#") for pattern in grammar["patterns"]]
        if sorted(included) != sorted(grammar["repository"]):
            raise ValueError("what is included isn't the repository")
        self.rules = [Rule(row) for name in included for row in grammar["repository"][name]["patterns"]]

    @staticmethod
    def next_of(rules, line, at):
        """The first match on the rest of the line, with its rule."""
        found = [(match, rule) for rule in rules if (match := rule.first.search(line, at))]
        return min(found, key=lambda pair: pair[0].start(), default=(None, None))

    def line_scopes(self, line):
        """The scope of each character of a line that ends with its line feed, None where it has none."""
        scopes, at, within = [None] * len(line), 0, None
        while at < len(line):
            match, rule = self.next_of(within.inner if within else self.rules, line, at)
            end = within.end.search(line, at) if within else None
            if end and (match is None or end.start() <= match.start()):
                scopes[at : end.end()] = [within.name] * (end.end() - at)
                at, within = end.end(), None
                continue
            if match is None:
                break
            if match.end() == match.start():
                raise ValueError(f"an empty match: {rule.first.pattern}")
            if within:
                scopes[at : match.start()] = [within.name] * (match.start() - at)
            scopes[match.start() : match.end()] = [rule.name] * len(match[0])
            for number, name in rule.captures.items():
                start, stop = match.span(number)
                scopes[max(start, 0) : max(stop, 0)] = [name] * (stop - start)
            at, within = match.end(), rule if rule.end else within
        if within:
            raise ValueError(f"open at the line's end: {line!r}")
        return scopes

    def scopes(self, text):
        """The scopes of all characters of a text, line by line."""
        return [self.line_scopes(line + "\n") for line in text.split("\n")]
