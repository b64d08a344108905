"""Texts of tests/ that are changed by chance: what is asked, scripts, and whole sessions."""
import random
import re
from functools import cache

from programs import TOKEN, WORDS
from running import bytes_of, text_of
from sessions import Session
from texts import TOP, commands_of, companion, sessions_below

# A session of texts that are asked begins so where their table has no head of its own.
HEAD = ["vat a () 3\ndef x := 6\nvar n := 0\ndef o { to get() { n := n + 1; return n } method run(i) { i * x } }", "step"]
ASKED = re.compile("[ \t]*ask[ \t]+[^ \t]+[ \t]*(.*)", re.S)
BUDGETS = [3, 30, 100, 400, 1_000]
# How many texts are asked in a session, and how many bytes a text or a session has, but for one in some.
TEXTS, SHORT, SELDOM = 40, 3_000, 0.01
NUMBERS = [0, 1, 2, 3, 7, 64, 255, 4_096, 4_097, 65_536, 1_000_000, 1_000_001, 2**31, 2**32 - 1, 2**32, 2**63 - 1, 2**63,
           10**20]
BYTES = bytes([0, 9, 10, 13, 32, 127, 128, 192, 224, 237, 255]) + b'"\\#;,.(){}[]<->:=!&|_\'~'
# More would go on for long in sessions that never come to rest.
MOST_STEPS = 60


class Texts:
    """Texts that may be asked, and sessions."""

    def __init__(self):
        read = companion("tables").table_of
        self.tables = [read(path.name, path.read_text()) for path in sorted((TOP / "tests").rglob("*.table"))]
        self.rows = [[row.meant for row in table.rows] for table in self.tables]
        # How often a table is taken: as it has rows, of which long ones count for little.
        self.weights = [sum(SELDOM if len(row) > SHORT else 1 for row in rows) for rows in self.rows]
        names = [name for folder in ("tests", "examples") for name in sessions_below(folder)]
        self.sessions = [it for it in (text_of((TOP / name).read_bytes()) for name in names) if it]
        commands = [command for session in self.sessions for command in commands_of(bytes_of(session))]
        self.parts = [part for command in commands for part in parts_of(command)]

    def head(self, place):
        """The commands of a table's head before the one that has the text, if that is asked."""
        commands = [line[2:] for line in self.tables[place].head if line.startswith("> ")]
        asked = next((it for it, line in enumerate(commands) if ".." in line), 0)
        return commands[:asked] if commands[asked] == "ask a .." else HEAD


def parts_of(command):
    """The text that a command has, if it has one."""
    line, _, script = command.removesuffix("\n").partition("\n")
    asked = ASKED.fullmatch(line)
    return [asked[1]] if asked else [script] if script else []


texts = cache(Texts)


class Mutator:
    """Changes texts by chance."""

    def __init__(self, seed):
        self.random = random.Random(seed)

    def chance(self, part):
        return self.random.random() < part

    def choice(self, items):
        """One of these, seldom a long one."""
        found = self.random.choice(items)
        while len(found) > SHORT and not self.chance(SELDOM):
            found = self.random.choice(items)
        return found

    def slice(self, items, most=None):
        """Two places between items, one of which may come after the other."""
        start = self.random.randint(0, len(items))
        return start, min(len(items), start + self.random.randint(0, min(most or len(items), len(items))))

    def changed(self, text, others):
        """A text with some changes, and now and then as it is."""
        for _ in range(self.random.choice([0, 1, 1, 1, 1, 2, 2, 3, 5, 8])):
            ways = [self.byte, self.byte, self.token, self.token, self.line, self.number, self.number, self.name, self.cut]
            way = self.random.choice([*ways, self.repeat])
            text = self.join(text, self.choice(others)) if self.chance(0.15) else way(text)
        return text

    def byte(self, text):
        """A byte lost, added or changed."""
        data = bytearray(bytes_of(text))
        place = self.random.randint(0, len(data))
        new = bytes([self.random.choice(BYTES) if self.chance(0.8) else self.random.randrange(256)])
        data[place:place + self.random.randint(0, 1)] = self.random.choice([b"", new, new])
        return text_of(bytes(data))

    def token(self, text):
        """A token lost, added, changed or exchanged with another one."""
        tokens = TOKEN.findall(text) or ["x"]
        place, other = self.random.randrange(len(tokens)), self.random.randrange(len(tokens))
        match self.random.randrange(4):
            case 0:
                tokens[place:place + self.random.randint(1, 3)] = []
            case 1:
                tokens.insert(place, self.random.choice([*WORDS, tokens[other]]))
            case 2:
                tokens[place] = self.random.choice([*WORDS, tokens[other]])
            case _:
                tokens[place], tokens[other] = tokens[other], tokens[place]
        return "".join(tokens)

    def line(self, text):
        """Some lines lost, written twice or moved."""
        lines = text.split("\n")
        start, end = self.slice(lines, 4)
        some, place = lines[start:end], self.random.randint(0, len(lines))
        if self.chance(0.7):
            del lines[start:end]
        if self.chance(0.7):
            lines[place:place] = some
        return "\n".join(lines)

    def number(self, text):
        """A number changed: by one, to one at a limit, or to another one of the text."""
        found = [*re.finditer("[0-9]+", text)]
        if not found:
            return text
        one = self.random.choice(found)
        value = int(one[0][:20])
        near, far = [value + 1, max(0, value - 1), f"0{value}", value * 10], self.random.choice(NUMBERS)
        new = self.random.choice([*near, far, self.random.choice(found)[0]])
        return f"{text[:one.start()]}{new}{text[one.end():]}"

    def name(self, text):
        """A name or a word changed to another one."""
        found = [*re.finditer("[A-Za-z_]+", text)]
        if not found:
            return text
        one, words = self.random.choice(found), [it for it in WORDS if it.isalpha()]
        others = [self.random.choice(found)[0], self.random.choice(words), f"{one[0]}_", "_", "é", "__return"]
        return f"{text[:one.start()]}{self.random.choice(others)}{text[one.end():]}"

    def cut(self, text):
        """A piece lost, or all but one."""
        start, end = self.slice(text)
        return text[:start] + text[end:] if self.chance(0.7) else text[start:end]

    def repeat(self, text):
        """A short piece written many times."""
        start, end = self.slice(text, self.random.choice([1, 2, 5, 20]))
        times = self.random.choice([2, 2, 3, 10, 60, 120, 250])
        return text[:start] + text[start:end] * times + text[end:]

    def join(self, text, other):
        """The beginning of a text with the end of another one, or with a piece of it inside."""
        place, (start, end) = self.random.randint(0, len(text)), self.slice(other)
        return text[:place] + (other[start:] if self.chance(0.5) else other[start:end] + text[place:])


def harmless(line):
    """A command, which does not go on for too long."""
    if not re.match("[ \t]*(run|work)[ \t]", line):
        return line
    return re.sub("[0-9]+", lambda it: str(int(it[0]) % MOST_STEPS) if MOST_STEPS < int(it[0][:9]) <= 1_000_000 else it[0], line)


class Mutated(Session):
    """A session of commands that may be any bytes, which are given at once. Counted are the texts that were changed."""

    def __init__(self, budget, commands, count=1):
        super().__init__(budget)
        self.commands, self.count = [harmless(line) for command in commands for line in command.split("\n")], count
        try:
            self.replies = [*self.engine.answers(bytes_of(self.input))]
        except Exception as fault:  # Also the interpreter may be at fault.
            self.replies = [f"(the interpreter fails: {fault!r})"]


def asked(mutator):
    """A session in which changed texts are asked, most of them of one table."""
    place = mutator.random.choices(range(len(texts().rows)), texts().weights)[0]
    commands = [*texts().head(place)]
    for number in range(TEXTS):
        others = texts().rows[place] if mutator.chance(0.6) else texts().parts
        text = mutator.changed(mutator.choice(others), others)
        commands += [f"vat v{number} (a) {text.count(chr(10)) + 1}\n{text}" if "\n" in text else f"ask a {text}", "step"]
        commands += ["run 5", "show"] if mutator.chance(0.1) else []
    return Mutated(mutator.random.choice(BUDGETS), [*commands, "run 9", "show", "journal"], TEXTS)


def mutated(seed):
    """A session of changed texts, or one that is changed itself."""
    mutator = Mutator(seed)
    if mutator.chance(0.6):
        return asked(mutator)
    text = mutator.changed(mutator.choice(texts().sessions), texts().sessions)
    return Mutated(mutator.random.choice(BUDGETS), [*text.split("\n"), "run 9", "show", "journal"])
