"""Plays a TextMate grammar on a text, line by line, as editors do."""
import json
import re


class Grammar:
    """A grammar, of which this plays what `editors/textmate` uses: matches, captures, what begins and ends, includes."""

    def __init__(self, path):
        grammar = json.loads(path.read_text(encoding="utf-8"))
        self.rules, self.repository = grammar["patterns"], grammar["repository"]

    def flat(self, rules):
        """Rules, with those in place of an include, or of a row of patterns, that it stands for."""
        for rule in rules:
            if "include" in rule:
                yield from self.flat([self.repository[rule["include"].removeprefix("#")]])
            elif "match" in rule or "begin" in rule:
                yield rule
            else:
                yield from self.flat(rule["patterns"])

    def scopes(self, text):
        """The innermost scope of each character of a text, or nothing."""
        found, open_rules = [], []
        for line in text.split("\n"):
            scopes = [""] * len(line)
            self.play(line, 0, len(line), open_rules, self.rules, scopes)
            found += [*scopes, ""]
        return found[:-1]

    def play(self, line, at, end, open_rules, rules, scopes):
        """Goes over a part of a line."""
        while at <= end:
            rule, found, closes = self.next(line, at, end, open_rules, rules)
            stop = found.start() if found else end
            if open_rules:
                paint(scopes, at, stop, open_rules[-1]["name"])
            if not found:
                return
            if closes:
                paint(scopes, *found.span(), open_rules.pop()["name"])
            else:
                paint(scopes, *found.span(), rule.get("name", ""))
                self.capture(line, found, rule, scopes)
            if "begin" in rule and not closes:
                open_rules.append(rule)
            at = max(found.end(), at + (found.end() == found.start()))

    def next(self, line, at, end, open_rules, rules):
        """The rule that comes next in a line, where it matches, and whether it is the end of the one that is open."""
        inner = open_rules[-1] if open_rules else None
        tried = [(inner, inner["end"], True)] if inner else []
        within = inner.get("patterns", []) if inner else rules
        tried += [(rule, rule.get("match") or rule["begin"], False) for rule in self.flat(within)]
        found = [(rule, re.compile(pattern).search(line, at, end), closes) for rule, pattern, closes in tried]
        return min((each for each in found if each[1]), key=lambda each: each[1].start(), default=(None, None, False))

    def capture(self, line, found, rule, scopes):
        """Paints the groups of a match, each by a name or by rules of its own."""
        for number, captured in rule.get("captures", {}).items():
            start, stop = found.span(int(number))
            if start < 0:
                continue
            paint(scopes, start, stop, captured.get("name", ""))
            if "patterns" in captured:
                self.play(line, start, stop, [], captured["patterns"], scopes)


def paint(scopes, start, stop, name):
    if name:
        scopes[start:stop] = [name] * (stop - start)
