"""Stands in for the program in tests: one shard, one lane, a plain map, and a file of changes in `store`.

A flush appends the changes that wait to the file, in one write and a sync. FAKE makes it err: `forgets` answers a flush without
writing, `skips` leaves out every tenth change, `guesses` answers a late put as stored, and `refuses` ends a run with 7.
"""

import os
import sys
import time

from monitoring.files import Text
from monitoring.lines import in_printed_order, read_line
from monitoring.plain_map import Change, PlainMap, Run

FILE = os.path.join("store", "changes")
FAULT = os.environ.get("FAKE", "")


def restored():
    """The map of the file."""
    store = PlainMap()
    if os.path.exists(FILE):
        with open(FILE, encoding="utf-8") as file:
            for line in file.read().splitlines():
                kind, name, *point = line.split(" ")
                store.apply(Change(kind, name, (int(point[0]), point[1]) if point else None))
    return store


def written(changes):
    """The lines of these changes."""
    return "".join(f"{kind} {name}{' %d %s' % point if point else ''}\n" for kind, name, point in changes)


def flush(run, flushed):
    """Appends the changes from `flushed` on."""
    changes = run.changes[flushed:]
    if FAULT == "skips":
        changes = [change for number, change in enumerate(changes, flushed) if number % 10 != 9]
    if FAULT != "forgets" or flushed == len(run.changes):
        with open(FILE, "ab") as file:
            os.write(file.fileno(), written(changes).encode())
            os.fsync(file.fileno())
    return len(run.changes)


def tell(run, told):
    """Prints what a phase added."""
    text = "".join(f"{line}\n" for line, _ in run.printed[told:])
    sys.stdout.write(text.replace(" late ", " stored ") if FAULT == "guesses" else text)
    sys.stdout.flush()
    return len(run.printed)


def run():
    """Answers a workload, phase by phase."""
    os.makedirs("store", exist_ok=True)
    lines, made, told, flushed = sys.stdin.read().splitlines(), Run(restored()), 0, 0
    in_printed_order(Text("standard input", "\n".join(lines)))
    for text in lines:
        line = read_line(text)
        if line and line.kind == "join":
            told = tell(made, told)
            time.sleep(0.001)
        elif line:
            made.take_line(line)
            flushed = flush(made, flushed) if made.taken > flushed else flushed
    tell(made, told)
    flush(made, flushed)


def dump():
    """Prints the map, by key."""
    store = restored()
    for key in sorted(store.names, key=str.encode):
        points = "".join(f" {time}:{word}" for time, word in store.points[key])
        print(f"0 {store.names[key]} floor 0 points {len(store.points[key])}{points}")


if __name__ == "__main__":
    if FAULT == "refuses" and sys.argv[1:2] == ["run"]:
        print("gorilla: shard 0: the device failed", file=sys.stderr)
        sys.exit(7)
    {"run": run, "dump": dump}[sys.argv[1]]()
