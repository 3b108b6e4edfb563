"""Kills the program at random moments, and checks what its folder then holds against a plain map.

Each round of a workload puts, gets and deletes points of some series in one lane, and may flush. After each kill a dump has to be
the map after a prefix of the run's changes, and that prefix has to have every change that a printed `done` counted. The next
run goes on from what was found. What was printed before the kill has to be a front of what the plain map answers.
"""

import argparse
import os
import random
import select
import shlex
import shutil
import signal
import subprocess
import tempfile
import time
from collections import namedtuple

from monitoring.files import OK, WRONG, Wrong, count_from, ended, tell, text_of
from monitoring.lines import put_line, read_dump, read_line
from monitoring.plain_map import PlainMap, Run, prefixes_of

TOOL = "crash"
ROOT = os.path.dirname(os.path.dirname(os.path.dirname(os.path.abspath(__file__))))
SERIES = 12
PATIENCE = 120

Plan = namedtuple("Plan", "workload run rounds")
Kill = namedtuple("Kill", "round answered counted prefix lost by_itself points")

NOT_SHOWN = """What this does not show: the machine did not lose power, so the system kept what the program had written, synced or not. A sync
that is missing, or that the disk does not carry out, is not found so. One lane ran, and no lanes beside each other. The seed
repeats the workloads and after which round a kill comes; the exact moment is the machine's."""

USAGE = """examples:
  tools/crash --kills 50 --seed 1
  tools/crash --kills 5 --rounds 200 --folder /mnt/disk/crash

The folder must not have a store yet. Where a check fails the folder is kept, with the last workload and what was printed."""


class Failed(Exception):
    """A check failed: the program did what the plain map does not."""


def round_of(chance, world):
    """The lines of one round: some puts, a few of which may come too late, and now and then a get, a delete and a flush."""
    lines = []
    for _ in range(chance.randint(1, 8)):
        name, kind = f"crash.{chance.randrange(SERIES):02}", chance.random()
        if kind < 0.05:
            lines.append(f"0 del {name}\n")
        elif kind < 0.1:
            lines.append(f"0 get {name} 0 {chance.randrange(10**9)}\n")
        else:
            world[name] = world.get(name, 0) + chance.randint(-1, 60)
            lines.append(put_line(0, name, max(world[name], 0), f"{chance.getrandbits(64):016x}"))
    if chance.random() < 0.4:
        lines.append("0 flush 0\n")
    return lines


def plan_of(chance, rounds, start):
    """A workload of so many rounds on a map, and what the plain map makes of it: the run, and what is printed after each round."""
    world = {name: points[-1][0] for name, points in start.points.items()}
    lines, run, ends = [], Run(start), [0]
    for _ in range(rounds):
        added = round_of(chance, world)
        for line in added:
            run.take_line(read_line(line[:-1]))
        lines += [*added, "join\n"]
        ends.append(len(run.printed))
    return Plan("".join(lines), run, ends)


def text_until(run, count):
    """The first so many printed lines."""
    return "".join(f"{line}\n" for line, _ in run.printed[:count])


def counts_of(run, printed):
    """What a printed front tells: how many changes were answered, and how many the last `done` counted. Failed where it is no front."""
    wanted = text_until(run, len(run.printed))
    if not wanted.startswith(printed):
        number = next((at for at, (told, due) in enumerate(zip(printed.split("\n"), wanted.split("\n")), 1) if told != due), wanted.count("\n") + 1)
        told = printed.split("\n")[number - 1] if number <= printed.count("\n") + 1 else ""
        due = wanted.split("\n")[number - 1]
        raise Failed(f"line {number} of what was printed is {told or 'missing'}, and the plain map answers {due or 'nothing'}")
    whole = run.printed[:printed.count("\n")]
    dones = [int(line.rpartition(" ")[2]) for line, _ in whole if line.split(" ")[2] == "done"]
    return whole[-1].changes if whole else 0, dones[-1] if dones else 0


def found_in(dump):
    """The map that a dump tells; a floor is more than this tool knows."""
    series = read_dump(dump)
    for one in series:
        if one.floor:
            raise Wrong(dump.name, f"{one.name} has a floor, which this tool does not know")
    return PlainMap((one.name, one.points) for one in series)


def judged(run, printed, found, after, by_itself):
    """What one kill showed: the longest prefix that the found map is of. Failed where it is of none, or misses what was counted."""
    answered, counted = counts_of(run, printed)
    prefixes = prefixes_of(run.start, run.changes, found)
    if not prefixes:
        raise Failed(f"the dump is the map after no prefix of the {len(run.changes)} changes")
    if prefixes[-1] < counted:
        raise Failed(f"the dump is the map after {prefixes[-1]} changes, and a done counted {counted}")
    if by_itself and prefixes[-1] < len(run.changes):
        raise Failed(f"the run ended by itself, and the dump is the map after {prefixes[-1]} of its {len(run.changes)} changes")
    points = sum(map(len, found.points.values()))
    return Kill(after, answered, counted, prefixes[-1], max(answered - prefixes[-1], 0), by_itself, points)


class Program:
    """The program, as a command and the folder that it is run in, and how many seconds its last run took."""

    def __init__(self, command, folder):
        self.command, self.folder, self.seconds = shlex.split(command), folder, 0.0

    def start(self, words, given, told):
        """Starts it in a session of its own, so that a kill meets all that it started."""
        try:
            return subprocess.Popen([*self.command, *words], stdin=given, stdout=subprocess.PIPE, stderr=told, cwd=self.folder, start_new_session=True)
        except OSError as fault:
            raise Wrong(self.command[0] if self.command else "the program", fault.strerror.lower()) from None

    def dump(self, patience=None):
        """What its dump prints. It is asked again for a while where another still has the folder."""
        until = time.monotonic() + 10
        while True:
            with tempfile.TemporaryFile() as told:
                process = self.start(["dump"], subprocess.DEVNULL, told if patience else None)
                try:
                    content, _ = process.communicate(timeout=patience)
                except subprocess.TimeoutExpired:
                    kill(process)
                    raise Failed(f"a dump took more than {patience} seconds") from None
                told.seek(0)
                errors = told.read()
            if process.returncode == 0:
                return text_of("the dump", content)
            if b"in use by another run" not in errors or time.monotonic() > until:
                raise Failed(f"a dump ended with {process.returncode}: {errors.decode(errors='replace').strip()}")
            time.sleep(0.05)

    def run(self, workload, moment):
        """Runs a workload, and kills it when the moment comes. What was printed; whether it ended by itself."""
        with tempfile.TemporaryFile() as given, tempfile.TemporaryFile() as told:
            given.write(workload.encode())
            given.seek(0)
            begun = time.monotonic()
            process = self.start(["run"], given, told)
            try:
                printed, is_killed = watched(process, moment)
            finally:
                kill(process)
            self.seconds = time.monotonic() - begun
            told.seek(0)
            errors = told.read().decode(errors="replace").strip()
        if not is_killed and process.returncode:
            raise Failed(f"a run ended by itself with {process.returncode}: {errors}")
        return printed.decode(errors="replace"), not is_killed


def kill(process):
    """Kills a process that this tool started, and all that it started in turn, and waits for its end."""
    if process.poll() is None:
        os.killpg(process.pid, signal.SIGKILL)
        process.wait()
    process.stdout.close()


def watched(process, moment):
    """Reads what a process prints until the moment comes, kills it then, and reads the rest. The bytes; whether it was killed."""
    printed, out, is_killed, until = b"", process.stdout.fileno(), False, time.monotonic() + PATIENCE
    while True:
        left = None if is_killed else moment.left(len(printed))
        ready, _, _ = select.select([out], [], [], 1 if left is None else left)
        if ready:
            piece = os.read(out, 1 << 16)
            if not piece:
                process.wait()
                return printed, is_killed and process.returncode == -signal.SIGKILL
            printed += piece
        elif left is not None:
            os.killpg(process.pid, signal.SIGKILL)
            is_killed = True
        elif time.monotonic() > until:
            raise Failed(f"a run took more than {PATIENCE} seconds")


class Moment:
    """The moment at which a kill is due: some seconds after so many bytes were printed; never where they are None."""

    def __init__(self, wanted, delay):
        self.wanted, self.delay, self.due = wanted, delay, None

    def left(self, count):
        """The seconds that are left, at least 0, when `count` bytes were printed; None where they do not run yet."""
        if self.wanted is None or count < self.wanted:
            return None
        if self.due is None:
            self.due = time.monotonic() + self.delay
        return max(self.due - time.monotonic(), 0)


def kept(folder, plan, printed):
    """Leaves the workload and what was printed beside the store, to be looked at."""
    for name, text in (("workload", plan.workload), ("printed", printed)):
        with open(os.path.join(folder, name), "w", encoding="utf-8") as file:
            file.write(text)


def one_kill(program, chance, rounds, start, pace):
    """One run, its kill, the dump and the check. The kill, and the map that was found."""
    plan = plan_of(chance, rounds, start)
    after = rounds if pace is None else chance.randrange(rounds)
    moment = Moment(None, 0) if pace is None else Moment(len(text_until(plan.run, plan.rounds[after])), chance.random() * 2 * pace)
    printed = ""
    try:
        printed, by_itself = program.run(plan.workload, moment)
        found = found_in(program.dump(PATIENCE))
        return judged(plan.run, printed, found, after, by_itself), found
    except Failed:
        kept(program.folder, plan, printed)
        raise


def row(cells):
    """A row of the table."""
    return "".join(f"{cell:>10}" for cell in cells)


def crash(words, folder):
    """All kills, with their table. Failed at the first that a check refuses."""
    program, chance = Program(words.program, folder), random.Random(words.seed)
    try:
        # A first call may have to build the program, so it has all the time it takes.
        found = found_in(program.dump())
    except Failed as fault:
        raise Wrong(words.program, fault) from None
    begun = time.monotonic()
    _, found = one_kill(program, chance, words.rounds, found, None)
    pace = program.seconds / words.rounds
    print(f"A run of {words.rounds} rounds that was left alone: its dump has all its changes.\n")
    print(row(["kill", "round", "answered", "counted", "prefix", "lost", "points"]), flush=True)
    kills = []
    for number in range(1, words.kills + 1):
        last, found = one_kill(program, chance, words.rounds, found, pace)
        kills.append(last)
        print(row([number, last.round, last.answered, last.counted, last.prefix, last.lost, last.points]) + ("  ended by itself" if last.by_itself else ""), flush=True)
    tell_all(kills, time.monotonic() - begun)


def tell_all(kills, seconds):
    """What all kills showed together."""
    alone = sum(one.by_itself for one in kills)
    print(f"\n{len(kills) - alone} kills and {alone} runs that ended before theirs, in {seconds:.1f} seconds. After each the dump was the map after a prefix of the")
    print("changes, and had all that a done had counted.")
    print(f"Prefixes from {min(one.prefix for one in kills)} to {max(one.prefix for one in kills)} changes; {sum(one.prefix > one.counted for one in kills)} longer than what a done had counted.")
    print(f"Longest loss: {max(one.lost for one in kills)} changes that were answered, and that no done had counted.\n\n{NOT_SHOWN}")


def begun_folder(path):
    """The folder to work in: the one that is named, made where it is absent, or one of its own. Wrong where it has a store."""
    if path is None:
        return tempfile.mkdtemp(prefix="gorilla-crash-")
    try:
        os.makedirs(path, exist_ok=True)
    except OSError as fault:
        raise Wrong(path, fault.strerror.lower()) from None
    if os.path.lexists(os.path.join(path, "store")):
        raise Wrong(path, "has a store already, which this tool would change")
    return path


def work(words):
    """Kills in a folder, which goes at the end where it is the tool's own and nothing failed."""
    folder = begun_folder(words.folder)
    try:
        crash(words, folder)
        return OK
    except Failed as fault:
        tell(TOOL, fault)
        tell(TOOL, f"the folder {folder} is kept, with the workload and what was printed")
        return WRONG
    finally:
        if words.folder is None and not os.path.exists(os.path.join(folder, "workload")):
            shutil.rmtree(folder)


def read_words(given):
    """The words of the command line."""
    parser = argparse.ArgumentParser(prog=TOOL, description=__doc__, epilog=USAGE + "\n\n" + NOT_SHOWN, formatter_class=argparse.RawDescriptionHelpFormatter)
    parser.add_argument("--kills", type=count_from(1), default=50, metavar="N", help="how often the program is killed; 50 unless given")
    parser.add_argument("--rounds", type=count_from(1, 10_000), default=60, metavar="N", help="how many rounds each workload has; 60 unless given")
    parser.add_argument("--seed", type=count_from(0), default=1, metavar="N", help="another number gives other workloads and moments; 1 unless given")
    parser.add_argument("--folder", metavar="FOLDER", help="where the store is made, and stays; a temporary folder unless given")
    parser.add_argument("--program", default=shlex.quote(os.path.join(ROOT, "gorilla")), metavar="COMMAND", help="the program to kill; ./gorilla of this repository unless given")
    return parser.parse_args(given)


def main(given=None):
    """The tool; returns its status."""
    words = read_words(given)
    return ended(TOOL, lambda: work(words))
