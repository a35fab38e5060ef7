"""A plain model of `lnttrack apply`, written apart from it by docs/FORMATS.md, to compare with (see `agree`).

    check/apply_model.py < SCRIPT              writes the replies, and ends with the status
    check/apply_model.py ROWS < SCRIPT         goes on from the rows of that file, one a line, and appends the new ones
"""
import json
import os
import re
import sys
import unicodedata
from fractions import Fraction

WHITE = set("\t\n\x0b\x0c\r \x85\xa0\u1680\u2028\u2029\u202f\u205f\u3000") | {chr(c) for c in range(0x2000, 0x200B)}
PENALTIES = {b"B/op": 25, b"allocs/op": 25, b"code_size": 25, b"execution_time": 10**16, b"compile_time": 10**16}
MOVES = {
    b"detected": [b"staged", b"active", b"ignored"],
    b"staged": [b"detected", b"active", b"not_to_be_fixed", b"ignored"],
    b"active": [b"not_to_be_fixed", b"ignored", b"verify"],
    b"not_to_be_fixed": [b"active"],
    b"ignored": [b"detected", b"active"],
    b"verify": [b"active", b"fixed"],
    b"fixed": [b"active"],
}
DECIMALS = {b"ns/op": 4, b"MB/s": 4, b"B/op": 0, b"allocs/op": 0, b"execution_time": 9, b"compile_time": 9, b"code_size": 0}


class Refused(Exception):
    """A refusal: the number, the word and what stands behind it."""


# ---- words, names, numbers, values


def spelled(name):
    return b"".join(bytes([c]) if 32 < c < 127 and c not in b"%," else b"%%%02X" % c for c in name)


def amount_of(word):
    return int(word) if re.fullmatch(rb"0|[1-9][0-9]*", word) else None


def number_of(word):
    amount = amount_of(word)
    return amount if amount is not None and amount < 2**64 else None


def name_of(word):
    if re.search(rb"%(?![0-9a-fA-F]{2})", word):
        return None
    name = re.sub(rb"%(..)", lambda escape: bytes([int(escape[1], 16)]), word)
    return name if is_text(name) and 1 <= len(name) <= 256 else None


def is_text(data):
    return text_length(data) is None


def text_length(data):
    """The length of the longest prefix that is UTF-8, where not all is."""
    try:
        data.decode()
    except UnicodeDecodeError as fault:
        return fault.start
    return None


def numeral_of(text):
    """Sign, digits and power of a numeral, or None."""
    parts = re.fullmatch(rb"([+-]?)([0-9]+)(?:\.([0-9]+))?(?:[eE]([+-]?[0-9]+))?", text)
    if not parts or len(text) > 40 or len(parts[2]) + len(parts[3] or b"") > 38:
        return None
    return parts[1] == b"-", int(parts[2] + (parts[3] or b"")), int(parts[4] or 0) - len(parts[3] or b"")


def value_of(text, metric):
    """The scaled value, or None where the text is no numeral or the value is out of range."""
    numeral = numeral_of(text)
    if numeral is None:
        return None
    negative, digits, power = numeral
    power += DECIMALS.get(metric, 4)
    if digits == 0 or power < -120:
        return 0
    if power > 60:
        return None
    exact = digits * Fraction(10) ** power
    value = (2 * exact.numerator + exact.denominator) // (2 * exact.denominator)
    return None if value > 10**16 else -value if negative else value


# ---- Go benchmark text


def fields_of(line):
    """The fields of a result line, or None."""
    if not line or line[0] in WHITE:
        return None
    fields = re.split("[" + "".join(re.escape(c) for c in WHITE) + "]+", line)
    if fields[-1] == "":
        fields.pop()
    if len(fields) < 4 or len(fields) % 2 or not re.fullmatch("[0-9]+", fields[1], re.ASCII):
        return None
    name = fields[0]
    if not (name == "Benchmark" or name.startswith("Benchmark") and unicodedata.category(name[9]) == "Lu"):
        return None
    pairs = zip(fields[2::2], fields[3::2])
    ok = all(numeral_of(value.encode()) is not None and len(unit.encode()) <= 64 for value, unit in pairs)
    return fields if ok else None


def setting_of(line):
    """Key and value of a configuration line, or None."""
    key, colon, value = line.rstrip("\r").partition(":")
    if not (colon and key and unicodedata.category(key[0]) == "Ll") or value and value[0] not in " \t":
        return None
    if any(c in WHITE or unicodedata.category(c) == "Lu" for c in key):
        return None
    return key, value.lstrip(" \t")


def read_go(body):
    """The samples of a text, and how many lines are ignored."""
    if not is_text(body):
        raise Refused(b"E06 NotText %d" % text_length(body))
    package, samples, ignored = "", [], 0
    for at, line in enumerate(body.decode().split("\n"), 1):
        fields = fields_of(line)
        if fields:
            name = fields[0][9:]
            test = (package + "#" + name if package else name or "#").encode()
            for value, unit in zip(fields[2::2], fields[3::2]):
                scaled = value_of(value.encode(), unit.encode())
                if scaled is None or len(test) > 256:
                    raise Refused(b"E09 OutOfRange %d" % at)
                samples.append((test, unit.encode(), scaled))
        elif line.startswith("Benchmark"):
            ignored += 1
        else:
            setting = setting_of(line)
            if setting and setting[0] == "pkg":
                package = setting[1]
    if len(samples) > 65536:
        raise Refused(b"E21 Full run_samples")
    return samples, ignored


# ---- JSON and LNT runs


class NotJson(Exception):
    pass


class TooDeep(Exception):
    pass


class Reader:
    """Reads a JSON text; where it is none `at` is the length of the longest prefix that some JSON text begins with.

    A value is its kind and what it holds; an object holds its members, each with its key, the key's place and its value.
    """

    def __init__(self, data):
        self.data, self.at = data, 0

    def next(self):
        return self.data[self.at] if self.at < len(self.data) else None

    def take(self, allowed):
        if self.next() is None or self.next() not in allowed:
            raise NotJson
        self.at += 1

    def spaces(self):
        while self.next() is not None and self.next() in b" \t\n\r":
            self.at += 1

    def text(self):
        value = self.element(0)
        if self.next() is not None:
            raise NotJson
        return value

    def element(self, depth):
        self.spaces()
        value = self.value(depth)
        self.spaces()
        return value

    def value(self, depth):
        first = self.next()
        if first is None:
            raise NotJson
        if first in b"{[":
            if depth == 32:
                raise TooDeep
            self.at += 1
            return ("object", self.members(depth)) if first == 123 else ("list", self.items(depth))
        if first == 34:
            return "text", self.string()
        for word, kind in ((b"true", "truth"), (b"false", "truth"), (b"null", "null")):
            if first == word[0]:
                for letter in word:
                    self.take([letter])
                return kind, None
        return "number", self.number()

    def members(self, depth):
        members = []
        self.spaces()
        if self.next() == 125:
            self.at += 1
            return members
        while True:
            self.spaces()
            place = self.at
            if self.next() != 34:
                raise NotJson
            key = self.string()
            self.spaces()
            self.take(b":")
            members.append((key, place, self.element(depth + 1)))
            self.take(b",}")
            if self.data[self.at - 1] == 125:
                return members

    def items(self, depth):
        items = []
        self.spaces()
        if self.next() == 93:
            self.at += 1
            return items
        while True:
            items.append(self.element(depth + 1))
            self.take(b",]")
            if self.data[self.at - 1] == 93:
                return items

    def digits(self):
        self.take(b"0123456789")
        while self.next() is not None and self.next() in b"0123456789":
            self.at += 1

    def number(self):
        begin = self.at
        if self.next() == 45:
            self.at += 1
        if self.next() == 48:
            self.at += 1
        else:
            self.digits()
        if self.next() == 46:
            self.at += 1
            self.digits()
        if self.next() is not None and self.next() in b"eE":
            self.at += 1
            if self.next() is not None and self.next() in b"+-":
                self.at += 1
            self.digits()
        return self.data[begin:self.at]

    def unit(self, may_be):
        """Four hexadecimal digits, each front of which may be one."""
        digits = b""
        for _ in range(4):
            if self.next() is None or not re.fullmatch(rb"[0-9a-fA-F]", bytes([self.next()])):
                raise NotJson
            if not may_be(digits + bytes([self.next()])):
                raise NotJson
            digits += bytes([self.next()])
            self.at += 1
        return int(digits, 16)

    def string(self):
        self.at += 1
        content = bytearray()
        while True:
            byte = self.next()
            if byte is None or byte < 32:
                raise NotJson
            self.at += 1
            if byte == 34:
                return bytes(content)
            if byte != 92:
                content.append(byte)
                continue
            self.take(b'"\\/bfnrtu')
            escape = self.data[self.at - 1]
            if escape != 117:
                content += {98: b"\b", 102: b"\f", 110: b"\n", 114: b"\r", 116: b"\t"}.get(escape, bytes([escape]))
                continue
            code = self.unit(lambda front: not re.match(rb"[dD][c-fC-F]", front))
            if 0xD800 <= code < 0xDC00:
                self.take(b"\\")
                self.take(b"u")
                low = self.unit(lambda front: re.match(rb"[dD]($|[c-fC-F])", front))
                code = 0x10000 + ((code - 0xD800) << 10) + (low - 0xDC00)
            content += chr(code).encode()


def second_keys(value, path):
    """The place and the path of each key that comes again in its object."""
    if value[0] == "object":
        seen = set()
        for key, place, inner in value[1]:
            if key in seen:
                yield place, b".".join(path + [key])
            seen.add(key)
            yield from second_keys(inner, path + [key])
    elif value[0] == "list":
        for i, inner in enumerate(value[1]):
            yield from second_keys(inner, path + [b"%d" % i])


def member(value, key):
    return {k: inner for k, _, inner in value[1]}.get(key, (None, None))


def is_name(value):
    return value[0] == "text" and 1 <= len(value[1]) <= 256


def expect(holds, rule, path):
    if not holds:
        raise Refused(b"E08 NotReport %d %s" % (rule, spelled(path)))


def read_lnt(body):
    """The machine, the commit and the samples of a run, and how many members are ignored."""
    if not is_text(body):
        raise Refused(b"E06 NotText %d" % text_length(body))
    reader = Reader(body)
    try:
        top = reader.text()
    except NotJson:
        raise Refused(b"E07 NotJson %d" % reader.at)
    except TooDeep:
        raise Refused(b"E28 TooDeep %d" % reader.at)
    expect(top[0] == "object", 1, b".")
    second = min(second_keys(top, []), default=None)
    expect(second is None, 2, second[1] if second else b"")
    expect(member(top, b"format_version") == ("text", b"2"), 3, b"format_version")
    machine = member(top, b"machine")
    expect(machine[0] == "object", 4, b"machine")
    expect(is_name(member(machine, b"name")), 5, b"machine.name")
    run = member(top, b"run")
    expect(run[0] == "object", 7, b"run")
    commit = member(run, b"llvm_project_revision")
    expect(is_name(commit), 8, b"run.llvm_project_revision")
    tests = member(top, b"tests")
    expect(tests[0] == "list", 9, b"tests")
    samples, ignored, out_of_range = [], 0, None
    for i, test in enumerate(tests[1]):
        path = b"tests.%d" % i
        expect(test[0] == "object", 10, path)
        name = member(test, b"name")
        expect(is_name(name), 11, path + b".name")
        for key, _, value in test[1]:
            if key == b"name":
                continue
            expect(1 <= len(key) <= 64, 12, path)
            numbers = [value] if value[0] == "number" else value[1] if value[0] == "list" else []
            expect(value[0] not in ("object", "truth") and all(x[0] == "number" for x in numbers), 13, path + b"." + key)
            ignored += value[0] in ("text", "null")
            for _, text in numbers:
                scaled = value_of(text, key)
                samples.append((name[1], key, scaled))
                if scaled is None:
                    out_of_range = out_of_range or (name[1], key)
    if out_of_range:
        raise Refused(b"E09 OutOfRange %s %s" % tuple(map(spelled, out_of_range)))
    if len(samples) > 65536:
        raise Refused(b"E21 Full run_samples")
    return member(machine, b"name")[1], commit[1], samples, ignored


# ---- segmentations


def centre_by(count, total):
    """The smallest of the whole numbers about which the squares of so many values of that sum add up to least."""
    mean, rest = divmod(total, count)
    return mean if 2 * rest <= count else mean + 1


def centre_of(values):
    return centre_by(len(values), sum(values))


class Segmentation:
    """The best cut list of some positions, each a list of values, with its tables, by trying all last cuts.

    Where there is more than one segment, each has at least so many positions."""

    def __init__(self, points, penalty, length=1):
        self.points, self.penalty, self.length = points, penalty, length
        before = [(0, 0, 0)]
        for values in points:
            count, total, squares = before[-1]
            before.append((count + len(values), total + sum(values), squares + sum(value * value for value in values)))
        costs = {}
        for t in range(len(points) + 1):
            for s in range(t):
                count, total, squares = (after - earlier for after, earlier in zip(before[t], before[s]))
                centre = centre_by(count, total)
                costs[s, t] = squares - 2 * centre * total + count * centre * centre
        self.least, self.back = [-penalty], [0]
        for t in range(1, len(points) + 1):
            totals = {s: self.least[s] + costs[s, t] + penalty for s in range(t) if s == 0 or length <= s <= t - length}
            self.least.append(min(totals.values()))
            self.back.append(min(s for s in totals if totals[s] == self.least[t]))
        dear = lambda s, t: self.least[s] + costs[s, t] > self.least[t]
        ends = range(len(points) + 1)
        self.pruned = [0 if 0 < s < length else next((t for t in ends if s < t and dear(s, t)), 0) for s in ends]
        self.cuts, at = [], self.back[-1]
        while at:
            self.cuts.insert(0, at)
            at = self.back[at]
        self.total = self.least[-1] if points else 0

    def levels(self):
        """The centres of the segments."""
        ends = [0] + self.cuts + [len(self.points)]
        return [centre_of(sum(self.points[s:t], [])) for s, t in zip(ends, ends[1:]) if s < t]

    def lines(self):
        numbers = lambda word, items: b" ".join([word] + [b"%d" % item for item in items])
        long = [b"length %d" % self.length] if self.length > 1 else []
        return [b"points %d" % len(self.points), b"penalty %d" % self.penalty, *long, numbers(b"cuts", self.cuts),
                b"total %d" % self.total, numbers(b"least", self.least), numbers(b"back", self.back), numbers(b"pruned", self.pruned)]


def put_fixed(value, metric):
    decimals = DECIMALS.get(metric, 4)
    digits = b"%0*d" % (decimals + 1, abs(value))
    sign = b"-" if value < 0 else b""
    return sign + (digits[:-decimals] + b"." + digits[-decimals:] if decimals else digits)


# ---- bisections


class Job:
    """A bisection of some commits, by what was said of their places."""

    def __init__(self, commits):
        self.commits, self.turns = commits, []  # turns: (place, status, or None where no test could be had)

    def ends(self):
        good = [place for place, status in self.turns if status == 0]
        bad = [place for place, status in self.turns if status is not None and status != 125 and 1 <= status < 128]
        return max([0] + good), min([len(self.commits) - 1] + bad), len(good) + len(bad)

    def stop(self):
        """The turn that ended it, or None."""
        return next((turn for turn in self.turns if turn[1] is None or turn[1] == 125 or turn[1] >= 128), None)

    def asked(self):
        """The place that is asked, or None."""
        low, high, _ = self.ends()
        return None if self.stop() or high == low + 1 else (low + high) // 2

    def is_found(self):
        return self.stop() is None and self.asked() is None

    def told(self, name):
        low, high, questions = self.ends()
        head = b"range %d questions %d " % (len(self.commits) - 1, questions)
        return head + self.outcome(name, low, high)

    def outcome(self, name, low=None, high=None):
        if low is None:
            low, high, _ = self.ends()
        at = lambda place: spelled(name(self.commits[place]))
        stop = self.stop()
        if stop:
            return b"faulted " + at(stop[0]) if stop[1] is None else b"undecided %s %d" % (at(stop[0]), stop[1])
        return b"found %s %s" % (at(low), at(high)) if self.is_found() else b"asks " + at(self.asked())


# ---- machines


class Machine:
    def __init__(self, kept=False):
        self.kept, self.new = kept, []  # whether a row names it, and the texts of its new entries
        self.regressions, self.jobs = [], []  # test, metric, commits before and after, state; bisections
        self.step, self.samples, self.cuts = 0, 0, 0
        self.commits, self.names = {}, {}  # number: (name, step), name: number
        self.runs, self.series = {}, {}  # run: its facts, series: its live (step, value) by commit
        # metric: penalty and least length, series: (version, commits, segmentation), series: (version, setting, commits, values)
        self.settings, self.published, self.tables = {}, {}, {}

    def add(self, text=None):
        """Counts an entry; a publication has no text that is kept."""
        if text is not None:
            self.new.append(text)
        self.step += 1
        return self.step

    def name(self, number):
        return self.commits[number][0]

    def commit(self, number, name):
        if number in self.commits and self.commits[number][0] == name:
            return b"duplicate @%d" % self.commits[number][1]
        taken = number if number in self.commits else self.names.get(name)
        if taken is not None:
            raise Refused(b"E05 CommitTaken %d %s" % (taken, spelled(self.commits[taken][0])))
        self.expect_room(len(self.commits) < 65536, b"commits")
        self.expect_room(self.step < 1048576, b"steps")
        self.commits[number], self.names[name] = (name, self.add(b"commit %d %s" % (number, spelled(name)))), number
        return b"commit %d %s" % (number, spelled(name))

    def submit(self, commit, run, samples, ignored):
        if commit not in self.names:
            raise Refused(b"E04 UnknownCommit")
        number = self.names[commit]
        if run in self.runs:
            there = self.runs[run]
            if (there["commit"], there["samples"]) == (number, samples):
                return b"duplicate @%d" % there["step"]
            raise Refused(b"E10 IdentityClash @%d" % there["step"])
        count = {}
        for test, metric, _ in samples:
            count[test, metric] = count.get((test, metric), 0) + 1
        live = {series: self.series.get(series, {}) for series in count}
        self.expect_room(self.step < 1048576, b"steps")
        self.expect_room(len(self.runs) < 65536, b"runs")
        self.expect_room(self.samples + len(samples) <= 524288, b"samples")
        self.expect_room(len(self.series.keys() | count.keys()) <= 16384, b"series")
        self.expect_room(all(sum(map(len, live[s].values())) + n <= 65536 for s, n in count.items()), b"series_samples")
        self.expect_room(all(len({c for c, there in live[s].items() if there} | {number}) <= 16384 for s in count), b"positions")
        self.samples += len(samples)
        words = b"".join(b" %s %s %d" % (spelled(test), spelled(metric), value) for test, metric, value in samples)
        step = self.add(b"accept %s %d %d%s" % (spelled(run), number, len(samples), words))
        for test, metric, value in samples:
            self.series.setdefault((test, metric), {}).setdefault(number, []).append((step, value))
        self.runs[run] = {"commit": number, "name": commit, "samples": samples, "step": step, "gone": None}
        return b"accepted %s samples %d ignored %d" % (spelled(run), len(samples), ignored)

    def retract(self, run):
        there = self.runs.get(run)
        if there is None:
            raise Refused(b"E11 UnknownRun")
        if there["gone"]:
            raise Refused(b"E12 AlreadyRetracted @%d" % there["gone"])
        self.expect_room(self.step < 1048576, b"steps")
        there["gone"] = self.add(b"retract " + spelled(run))
        for test, metric, _ in there["samples"]:
            live = self.series[test, metric]
            live[there["commit"]] = [sample for sample in live[there["commit"]] if sample[0] != there["step"]]
        return b"retracted " + spelled(run)

    def setting(self, metric):
        return self.settings.get(metric, (PENALTIES.get(metric, 2500000000), 1))

    def tune(self, metric, penalty, length=None):
        """Sets the penalty of a metric, and the least length of its segments, which stays where none is given."""
        self.expect_room(self.step < 1048576, b"steps")
        length = length or self.setting(metric)[1]
        self.add(b"tune %s %d %d" % (spelled(metric), penalty, length))
        self.settings[metric] = penalty, length
        return b"tuned %s %d" % (spelled(metric), penalty) + (b" %d" % length if length > 1 else b"")

    def positions(self, test, metric):
        """The commits and the values of a known series, by rising commit."""
        if (test, metric) not in self.series:
            raise Refused(b"E13 UnknownSeries")
        live = sorted((commit, there) for commit, there in self.series[test, metric].items() if there)
        return [commit for commit, _ in live], [[value for _, value in there] for _, there in live]

    def calibrate(self, test, metric, factor):
        points = self.positions(test, metric)[1]
        if len(points) < 3:
            raise Refused(b"E23 TooFewPoints %d" % len(points))
        centres = [centre_of(values) for values in points]
        apart = sorted(abs(after - before) for before, after in zip(centres, centres[1:]))
        return self.tune(metric, factor * max(1, apart[(len(points) - 2) // 2] ** 2))

    # The version of the series' last publication, and how many first positions it has in common with these, where its table
    # is at hand and of this setting; the table is then taken, and comes back with the next publication alone.
    def take_base(self, test, metric, setting, commits, points):
        table = self.tables.get((test, metric))
        if not table or table[1] != setting:
            return 0, 0
        del self.tables[test, metric]
        front = 0
        for commit, values, old_commit, old_values in zip(commits, points, table[2], table[3]):
            if commit != old_commit or values != old_values:
                break
            front += 1
        return table[0], front

    def segment(self, test, metric):
        commits, points = self.positions(test, metric)
        setting = self.setting(metric)
        base, front = self.take_base(test, metric, setting, commits, points)
        self.expect_room(self.step < 1048576, b"steps")
        found = Segmentation(points, *setting)
        self.expect_room(self.cuts + len(found.cuts) <= 16777216, b"cuts")
        self.cuts += len(found.cuts)
        version = self.step
        self.published[test, metric] = version, commits, found
        self.tables[test, metric] = version, setting, commits, points
        self.add()
        told = version, base, len(points), len(found.cuts), len(points) - front, found.total
        return b"segmented version %d base %d points %d cuts %d redone %d total %d" % told

    def last(self, test, metric):
        self.positions(test, metric)
        if (test, metric) not in self.published:
            raise Refused(b"E14 NothingPublished")
        return self.published[test, metric]

    def changes(self, test, metric):
        version, commits, found = self.last(test, metric)
        lines = [b"changes version %d lines %d" % (version, len(found.cuts))]
        levels = found.levels()
        for cut, left, right in zip(found.cuts, levels, levels[1:]):
            worse = right < left if metric == b"MB/s" else left < right
            names = [spelled(self.commits[commit][0]) for commit in commits[cut - 1:cut + 1]]
            lines.append(b" ".join(names + [put_fixed(left, metric), put_fixed(right, metric), b"regression" if worse else b"improvement"]))
        return b"\n".join(lines)

    def verify(self, test, metric):
        version, _, found = self.last(test, metric)
        lines = found.lines()
        return b"\n".join([b"verified version %d lines %d" % (version, len(lines))] + lines)

    def list_runs(self):
        lines = [b"runs lines %d" % len(self.runs)]
        for run, there in self.runs.items():
            state = b"retracted" if there["gone"] else b"live"
            lines.append(b"%s %s %d %s" % (spelled(run), spelled(there["name"]), len(there["samples"]), state))
        return b"\n".join(lines)

    def regress(self, test, metric, change):
        _, commits, found = self.last(test, metric)
        if not 1 <= change <= len(found.cuts):
            raise Refused(b"E15 NoSuchChange %d" % len(found.cuts))
        cut = found.cuts[change - 1]
        return self.raise_it(test, metric, commits[cut - 1], commits[cut])

    def raise_it(self, test, metric, before, after):
        self.expect_room(self.step < 1048576, b"steps")
        self.add(b"raise %s %s %d %d" % (spelled(test), spelled(metric), before, after))
        self.regressions.append([test, metric, before, after, b"detected"])
        return b"regression %d detected" % len(self.regressions)

    def set_state(self, number, state):
        if not 1 <= number <= len(self.regressions):
            raise Refused(b"E16 UnknownRegression")
        regression = self.regressions[number - 1]
        if state not in MOVES[regression[4]]:
            raise Refused(b"E17 IllegalMove %s %s" % (regression[4], state))
        self.expect_room(self.step < 1048576, b"steps")
        self.add(b"move %d %s" % (number, state))
        before, regression[4] = regression[4], state
        return b"regression %d %s %s" % (number, before, state)

    def begin(self, low, high):
        job = Job(sorted(number for number in self.commits if low <= number <= high))
        self.expect_room(sum(there.asked() is not None for there in self.jobs + [job]) <= 256, b"jobs")
        self.expect_room(self.step < 1048576, b"steps")
        self.add(b"begin %d %d" % (low, high))
        self.jobs.append(job)
        return self.tell_job(len(self.jobs))

    def bisect(self, low, high):
        if low not in self.names or high not in self.names:
            raise Refused(b"E04 UnknownCommit")
        if self.names[low] >= self.names[high]:
            raise Refused(b"E20 BadRange")
        return self.begin(self.names[low], self.names[high])

    def job(self, number):
        if not 1 <= number <= len(self.jobs):
            raise Refused(b"E18 UnknownJob")
        return self.jobs[number - 1]

    def tell_job(self, number):
        return b"job %d %s" % (number, self.job(number).told(self.name))

    def answer_job(self, number, commit, status):
        job = self.job(number)
        if commit not in self.names:
            raise Refused(b"E04 UnknownCommit")
        if job.asked() is None:
            raise Refused(b"E25 JobClosed " + job.outcome(self.name))
        if self.names[commit] != job.commits[job.asked()]:
            raise Refused(b"E19 NotAsked " + spelled(self.name(job.commits[job.asked()])))
        return self.say(number, job.asked(), status)

    def say(self, number, place, status):
        self.expect_room(self.step < 1048576, b"steps")
        self.add(b"giveup %d %d" % (number, place) if status is None else b"answer %d %d %d" % (number, place, status))
        self.jobs[number - 1].turns.append((place, status))
        return self.tell_job(number)

    def resume(self, number):
        job = self.job(number)
        if job.asked() is not None:
            raise Refused(b"E29 JobOpen " + spelled(self.name(job.commits[job.asked()])))
        if job.is_found():
            raise Refused(b"E25 JobClosed " + job.outcome(self.name))
        low, high, _ = job.ends()
        return self.begin(job.commits[low], job.commits[high])

    def report_facts(self):
        """What a report says of each series, in order: test, metric, samples, positions, changes, centre."""
        for test, metric in sorted(self.series):
            live = self.series[test, metric].values()
            changes, centre = None, None
            if (test, metric) in self.published:
                found = self.published[test, metric][2]
                changes = len(found.cuts)
                centre = put_fixed(found.levels()[-1], metric) if found.points else None
            yield test, metric, sum(map(len, live)), sum(bool(there) for there in live), changes, centre

    def report(self, machine, form):
        if form == b"text":
            lines = []
            for test, metric, samples, positions, changes, centre in self.report_facts():
                words = b"%d" % samples, b"%d" % positions, b"-" if changes is None else b"%d" % changes
                lines.append(b"series %s %s %s %s" % (spelled(test).ljust(40), spelled(metric).ljust(16),
                                                     b" ".join(word.rjust(8) for word in words), (centre or b"-").rjust(20)))
            for number, (test, metric, before, after, state) in enumerate(self.regressions, 1):
                names = [spelled(name) for name in (test, metric, self.name(before), self.name(after))]
                lines.append(b"regression %d %s %s" % (number, b" ".join(names), state))
            lines += [self.tell_job(number) for number in range(1, len(self.jobs) + 1)]
            return b"\n".join([b"report lines %d" % len(lines)] + lines)
        text = lambda data: None if data is None else data.decode()
        pages = {
            "jobs": [{"job": number, "outcome": text(job.outcome(self.name)), "questions": job.ends()[2], "range": len(job.commits) - 1}
                     for number, job in enumerate(self.jobs, 1)],
            "machine": text(machine),
            "regressions": [{"after": text(self.name(after)), "before": text(self.name(before)), "metric": text(metric), "number": number,
                             "state": text(state), "test": text(test)}
                            for number, (test, metric, before, after, state) in enumerate(self.regressions, 1)],
            "series": [{"centre": text(centre), "changes": changes, "metric": text(metric), "positions": positions, "samples": samples,
                        "test": text(test)} for test, metric, samples, positions, changes, centre in self.report_facts()],
            "step": self.step,
        }
        return b"report lines 1\n" + json.dumps(pages, ensure_ascii=False, separators=(",", ":")).encode()

    def replay(self, text, version):
        """Adds a kept entry; False where the text is none in that version, or it isn't allowed."""
        before = self.step
        if version == 1 and text.startswith(b"tune "):
            text += b" 1"
        try:
            words = text.split(b" ")
            numbers = [number_of(word) for word in words]
            names = [name_of(word) for word in words]
            kind, count = words[0], len(words)
            if kind == b"commit" and count == 3:
                self.commit(numbers[1], names[2])
            elif kind == b"accept" and count >= 4 and numbers[2] in self.commits and count == 4 + 3 * numbers[3]:
                samples = [(names[i], names[i + 1], int(words[i + 2])) for i in range(4, count, 3)]
                if len(samples) > 65536 or any(len(metric) > 64 or abs(value) > 10**16 for _, metric, value in samples):
                    return False
                self.submit(self.name(numbers[2]), names[1], samples, 0)
            elif kind == b"retract" and count == 2:
                self.retract(names[1])
            elif kind == b"tune" and count == 4 and len(names[1]) <= 64 and 0 <= int(words[2]) <= 10**36 and 1 <= int(words[3]) <= 64:
                self.tune(names[1], int(words[2]), int(words[3]))
            elif kind == b"raise" and count == 5 and (names[1], names[2]) in self.series:
                if not (numbers[3] in self.commits and numbers[4] in self.commits and numbers[3] < numbers[4]):
                    return False
                self.raise_it(names[1], names[2], numbers[3], numbers[4])
            elif kind == b"move" and count == 3 and words[2] in MOVES:
                self.set_state(numbers[1], words[2])
            elif kind == b"begin" and count == 3 and numbers[1] in self.commits and numbers[2] in self.commits and numbers[1] < numbers[2]:
                self.begin(numbers[1], numbers[2])
            elif kind in (b"answer", b"giveup") and count == (4 if kind == b"answer" else 3):
                status = status_of(words[3]) if kind == b"answer" else None
                if self.job(numbers[1]).asked() != numbers[2] or numbers[2] is None or kind == b"answer" and status is None:
                    return False
                self.say(numbers[1], numbers[2], status)
        except (Refused, TypeError, ValueError, KeyError):
            return False
        # Exactly one entry was added, and this is its spelling.
        return self.step == before + 1 and self.new.pop() == text

    @staticmethod
    def expect_room(holds, limit):
        if not holds:
            raise Refused(b"E21 Full " + limit)


# ---- scripts

def status_of(word):
    number = number_of(word)
    return number if number is not None and number < 256 else None


def state_of(word):
    return word if word in MOVES else None


def report_form_of(word):
    return word if word in (b"text", b"json") else None


# By the first words of a form: how many words it has, which are names, and which are something else, and what.
FORMS = {
    (b"machine",): (2, [1], []),
    (b"commit",): (4, [1, 3], [(2, number_of)]),
    (b"submit", b"go"): (6, [2, 3, 4], [(5, number_of)]),
    (b"submit", b"lnt"): (5, [2, 3], [(4, number_of)]),
    (b"retract",): (3, [1, 2], []),
    (b"tune",): ((4, 5), [1, 2], [(3, amount_of), (4, number_of)]),
    (b"calibrate",): (5, [1, 2, 3], [(4, number_of)]),
    (b"segment",): (4, [1, 2, 3], []),
    (b"changes",): (4, [1, 2, 3], []),
    (b"verify",): (4, [1, 2, 3], []),
    (b"regress",): (5, [1, 2, 3], [(4, number_of)]),
    (b"state",): (4, [1], [(2, number_of), (3, state_of)]),
    (b"bisect",): (4, [1, 2, 3], []),
    (b"answer",): (5, [1, 3], [(2, number_of), (4, status_of)]),
    (b"resume",): (3, [1], [(2, number_of)]),
    (b"job",): (3, [1], [(2, number_of)]),
    (b"runs",): (2, [1], []),
    (b"report",): (3, [1], [(2, report_form_of)]),
}
WITH_METRIC = {b"tune", b"calibrate", b"segment", b"changes", b"verify", b"regress"}


def form_of(words):
    """The first words, the names and the other words, read, of a request line, or None."""
    for first, (count, names, others) in FORMS.items():
        if tuple(words[:len(first)]) == first and (len(words) in count if first == (b"tune",) else len(words) == count):
            values = [read(words[i]) for i, read in others if i < len(words)]
            if None not in values:
                return first, [words[i] for i in names], values
    return None


def answer(machines, first, names, values, body):
    """The step and the text of the reply to a request that has a form."""
    step = 0
    try:
        if first[0] == b"submit" and values[0] > 8388608:
            raise Refused(b"E26 BodyTooLong")
        names = [name_of(word) for word in names]
        if None in names or first[0] in WITH_METRIC and len(names[-1]) > 64:
            raise Refused(b"E02 BadName")
        if first == (b"tune",) and values[0] > 10**36 or first == (b"calibrate",) and not 1 <= values[0] <= 1000:
            raise Refused(b"E22 BadPenalty")
        if first == (b"tune",) and not 1 <= (values + [1])[1] <= 64:
            raise Refused(b"E30 BadLength")
        given = {(b"submit", b"go"): read_go, (b"submit", b"lnt"): read_lnt}.get(first, lambda _: ())(body)
        if first == (b"machine",):
            if names[0] not in machines:
                Machine.expect_room(len(machines) < 16, b"machines")
                machines[names[0]] = Machine()
            return machines[names[0]].step, b"machine " + spelled(names[0])
        machine = machines.get(names[0])
        if machine is None:
            raise Refused(b"E03 UnknownMachine")
        step = machine.step
        if first == (b"submit", b"lnt") and given[0] != names[0]:
            raise Refused(b"E08 NotReport 6 machine.name")
        text = {
            b"commit": lambda: machine.commit(values[0], names[1]),
            b"submit": lambda: machine.submit(names[1], names[2], *given) if first[1] == b"go" else machine.submit(given[1], names[1], *given[2:]),
            b"retract": lambda: machine.retract(names[1]),
            b"tune": lambda: machine.tune(names[1], *values),
            b"calibrate": lambda: machine.calibrate(names[1], names[2], values[0]),
            b"segment": lambda: machine.segment(*names[1:]),
            b"changes": lambda: machine.changes(*names[1:]),
            b"verify": lambda: machine.verify(*names[1:]),
            b"regress": lambda: machine.regress(names[1], names[2], values[0]),
            b"state": lambda: machine.set_state(*values),
            b"bisect": lambda: machine.bisect(*names[1:]),
            b"answer": lambda: machine.answer_job(values[0], names[1], values[1]),
            b"resume": lambda: machine.resume(values[0]),
            b"job": lambda: machine.tell_job(values[0]),
            b"runs": lambda: machine.list_runs(),
            b"report": lambda: machine.report(names[0], values[0]),
        }[first[0]]()
        return machine.step, text
    except Refused as refusal:
        return step, refusal.args[0]


# ---- stores


def load(rows):
    """The machines that some rows make, their version, and the number of the first row that makes nothing, or None."""
    machines, version = {}, 1
    for number, row in enumerate(rows, 1):
        if row == b"format 2" and version == 1:
            version = 2
            continue
        kind, _, rest = row.partition(b" ")
        word, space, text = rest.partition(b" ")
        name = name_of(word)
        if name is None or spelled(name) != word:
            return machines, version, number
        if kind == b"machine" and not space and name not in machines and len(machines) < 16:
            machines[name] = Machine(kept=True)
        elif not (kind == b"entry" and space and name in machines and machines[name].replay(text, version)):
            return machines, version, number
    return machines, version, None


def new_rows(machines):
    for name, machine in machines.items():
        if not machine.kept:
            yield b"machine " + spelled(name)
        for text in machine.new:
            yield b"entry %s %s" % (spelled(name), text)


def apply(script, rows=()):
    """The replies to a script, the status, and its line; and the rows that are new."""
    machines, version, bad = load(rows)
    if bad is not None:
        return b"", 6, b"bad store: row %d\n" % bad, []
    told, status, line = run(script, machines)
    new = [] if status else list(new_rows(machines))
    return told, status, line, [b"format 2"] * (version == 1 and new != []) + new


def run(script, machines):
    """The replies to a script on some machines, the status, and its line."""
    replies, at = [], 0
    while at < len(script):
        begin = at
        feed = script.find(b"\n", at)
        line = script[at:] if feed < 0 else script[at:feed]
        at += len(line) + 1
        cut_off = b"".join(replies), 7, b"cut off: input at %d\n" % begin
        if len(line) > 4096:
            return cut_off
        words = [word for word in line.split(b" ") if word]
        if not words or line[:1] == b"#":
            continue
        form = form_of(words)
        if form is None:
            replies.append(b"@0 E01 BadRequest\n")
            continue
        length = form[2][0] if form[0][0] == b"submit" else 0
        if length > max(len(script) - at, 0):
            return cut_off
        replies.append(b"@%d %s\n" % answer(machines, *form, script[at:at + length]))
        at += length
    return b"".join(replies), 0, b""


def main():
    rows = []
    if sys.argv[1:] and os.path.exists(sys.argv[1]):
        with open(sys.argv[1], "rb") as file:
            rows = file.read().split(b"\n")[:-1]
    told, status, line, new = apply(sys.stdin.buffer.read(), rows)
    if sys.argv[1:] and new:
        with open(sys.argv[1], "ab") as file:
            file.write(b"".join(row + b"\n" for row in new))
    sys.stdout.buffer.write(told)
    sys.stderr.buffer.write(line)
    sys.exit(status)


if __name__ == "__main__":
    main()
