"""What export, merge and view-store share: the rows of a store, and what the histories in them say.

docs/FORMATS.md has the rows and the entries. A row is here a pair: the version of its text, and its words, `entry M
KIND` or `machine M`, with all that follows as the last of them. A store is read from a copy, which is made while no
night holds STORE.lock, so it stays as it is and nobody waits for long. Rows are read one after another, and not
kept."""
import contextlib
import fcntl
import os
import shutil
import sqlite3
import subprocess
import tempfile

HERE = os.path.dirname(os.path.realpath(__file__))
LNTTRACK = os.environ.get("LNTTRACK") or os.path.join(HERE, "..", "lnttrack")


class Wrong(Exception):
    """What is wrong, to be told in a line."""


def spell(text):
    """A name as rows and scripts spell it."""
    name = text.encode(errors="surrogateescape")
    return "".join(chr(b) if 32 < b < 127 and b not in b"%," else f"%{b:02X}" for b in name)


class Store:
    """A copy of a store, open for reading."""

    def __init__(self, name, base, copy):
        self.name, self.base, self.copy = name, base, copy

    def rows(self):
        """Its rows; those that say a version are not among them."""
        version = 1
        try:
            for content, in self.base.execute("SELECT content FROM kept ORDER BY number"):
                words = bytes(content).decode("ascii").split(" ", 3)
                if words[0] == "format":
                    version = int(words[1])
                elif words[0] in ("machine", "entry"):
                    yield version, words
                else:
                    raise Wrong(f"{self.name} has a row that is not known here: {' '.join(words)[:60]}")
        except (sqlite3.Error, ValueError) as e:
            raise Wrong(f"{self.name} is no store: {e}") from None

    def machines(self):
        """Its machines as they are spelled, in the order of their rows."""
        return [words[1] for _, words in self.rows() if words[0] == "machine"]


@contextlib.contextmanager
def opened(name):
    """The store of that name."""
    if not os.path.isfile(name):
        raise Wrong(f"there is no store {name}")
    with open(name, "rb") as file:
        if file.read(16) != b"SQLite format 3\0":
            raise Wrong(f"{name} is no store: file is not a database")
    with tempfile.TemporaryDirectory() as folder:
        copy = os.path.join(folder, "store")
        with open(name + ".lock", "a") as lock:
            fcntl.flock(lock, fcntl.LOCK_EX)
            for part in filter(lambda part: os.path.exists(name + part), ("", "-wal", "-journal")):
                shutil.copyfile(name + part, copy + part)
        with contextlib.closing(sqlite3.connect(copy)) as base:
            yield Store(name, base, copy)


def write(name, rows):
    """Makes a new store of rows, whose versions rise. The program reads it whole, so what comes of it is a store."""
    with contextlib.closing(sqlite3.connect(name)) as base, base:
        base.execute("CREATE TABLE kept (number INTEGER PRIMARY KEY, content BLOB NOT NULL) STRICT")
        last, number = 1, 0
        for version, words in rows:
            for text in [f"format {it}" for it in range(last + 1, version + 1)] + [" ".join(words)]:
                number += 1
                base.execute("INSERT INTO kept VALUES (?, ?)", (number, text.encode("ascii")))
            last = max(last, version)
    words = [LNTTRACK, "apply", "--store", name]
    done = subprocess.run(words, stdin=subprocess.DEVNULL, stderr=subprocess.PIPE, text=True)
    if done.returncode:
        raise Wrong(f"lnttrack ended with status {done.returncode}: {done.stderr.strip()}")


class Newer:
    """What a machine's history has of the commits above one: these by number, the runs at them that are live, the last
    setting of each metric, and the regressions of changes between them, each with the states that it was moved to."""

    def __init__(self, store, machine, commit):
        self.store, self.machine, since = store, machine, -1
        names, gone, settings, raised = {}, set(), {}, []
        for version, words in store.rows():
            if words[:2] != ["entry", machine]:
                continue
            kind, rest = words[2], words[3]
            if kind == "commit":
                number, name = rest.split(" ")
                names[int(number)] = name
                since = int(number) if name == commit else since
            elif kind == "retract":
                gone.add(rest)
            elif kind in ("tune", "direction"):
                settings[kind, rest.split(" ")[0]] = (version, f"{kind} {rest}" + " 1" * (version == 1))
            elif kind == "raise":
                raised.append([rest, []])
            elif kind == "move":
                number, state = rest.split(" ")
                raised[int(number) - 1][1].append(state)
        if since < 0:
            raise Wrong(f"{machine} of {store.name} has no commit {commit}")
        self.commits = {number: names[number] for number in sorted(names) if number > since}
        self.gone, self.settings = gone, list(settings.values())
        self.regressions = [(change, states) for change, states in raised
                            if all(int(it) in self.commits for it in change.split(" ")[2:])]

    def runs(self):
        """Each run, in the order in which they were accepted: its name, its commit's number, and its samples, a text."""
        for _, words in self.store.rows():
            if words[:3] == ["entry", self.machine, "accept"]:
                run, commit, _, *samples = words[3].split(" ", 3)
                if run not in self.gone and int(commit) in self.commits:
                    yield run, int(commit), "".join(samples)

    def rows(self):
        """The rows of a store that has this much and no more."""
        yield 2, ["machine", self.machine]
        for number, name in self.commits.items():
            yield self.entry("commit", number, name)
        series, number = set(), 0
        for run, commit, samples in self.runs():
            words = samples.split(" ") if samples else []
            series.update(zip(words[0::3], words[1::3]))
            yield self.entry("accept", run, commit, len(words) // 3, *words)
        for change, states in self.regressions:
            if tuple(change.split(" ")[:2]) in series:
                number += 1
                yield self.entry("raise", change)
                yield from (self.entry("move", number, state) for state in states)
        for version, setting in self.settings:
            yield max(2, version), ["entry", self.machine, setting]

    def entry(self, *words):
        """A row of an entry of version 2."""
        return 2, ["entry", self.machine, *map(str, words)]
