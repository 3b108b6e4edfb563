"""A plain map from names to lists of points, and what a run of one lane prints by it. It knows nothing of files or blocks."""

from collections import namedtuple

from monitoring.lines import SLOTS

DUE = 65_536
PUT_WEIGHT = 21

Change = namedtuple("Change", "kind name point")
Printed = namedtuple("Printed", "line changes")


class PlainMap:
    """Series by their keys. A key is the name without case; the name stays as it was first spelled."""

    def __init__(self, series=()):
        self.names, self.points = {}, {}
        for name, points in series:
            self.names[name.casefold()] = name
            self.points[name.casefold()] = list(points)

    def apply(self, change):
        """Makes a change, and gives the key that it changed."""
        key = change.name.casefold()
        if change.kind == "del":
            del self.names[key], self.points[key]
        else:
            self.names.setdefault(key, change.name)
            self.points.setdefault(key, []).append(change.point)
        return key

    def has_same(self, other, key):
        """Whether both maps have the same under a key: the name and all points, or nothing."""
        return self.names.get(key) == other.names.get(key) and self.points.get(key) == other.points.get(key)

    def copy(self):
        """A map of its own with the same series."""
        return PlainMap((self.names[key], self.points[key]) for key in self.names)

    def answer(self, line, slots=SLOTS):
        """What a put, get or del is answered, and the change that it makes, or None. The map itself stays as it is."""
        points = self.points.get(line.name.casefold())
        if line.kind == "get" and points is not None:
            within = [f" {time}:{word}" for time, word in points if line.numbers[0] <= time <= line.numbers[1]]
            return f"points {len(within)}{''.join(within)}", None
        if line.kind == "del" and points is not None:
            return "gone", Change("del", line.name, None)
        if line.kind != "put":
            return "absent", None
        if points is not None and points[-1][0] >= line.numbers[0]:
            return f"late {points[-1][0]}", None
        if points is None and len(self.points) >= slots:
            return f"full {slots}", None
        return "stored", Change("put", line.name, (line.numbers[0], line.word))


class Run:
    """A run of one lane on a map: what it prints, and the changes that it makes, both in order."""

    def __init__(self, start):
        self.start, self.map = start, start.copy()
        self.printed, self.changes = [], []
        self.number = self.taken = self.waiting = 0

    def says(self, answer):
        """Prints an event."""
        self.printed.append(Printed(f"0 0:{self.number} {answer}", len(self.changes)))
        self.number += 1

    def flush(self):
        """Takes the changes that wait."""
        self.says(f"take {len(self.changes) - self.taken}")
        self.taken, self.waiting = len(self.changes), 0
        self.says(f"done {self.taken}")

    def take_line(self, line):
        """Runs a line."""
        if line.kind == "flush":
            self.flush()
            return
        answer, change = self.map.answer(line)
        if change:
            self.map.apply(change)
            self.changes.append(change)
        self.says(answer)
        if change and change.kind == "put":
            self.waiting += PUT_WEIGHT
            if self.waiting >= DUE:
                self.flush()


def prefixes_of(start, changes, found):
    """Every number of first changes after which the map `start` is the map `found`."""
    now = start.copy()
    unlike = {key for key in {*now.names, *found.names} if not now.has_same(found, key)}
    numbers = [] if unlike else [0]
    for number, change in enumerate(changes, 1):
        key = now.apply(change)
        unlike.discard(key)
        if not now.has_same(found, key):
            unlike.add(key)
        if not unlike:
            numbers.append(number)
    return numbers
