"""The program's lines: names, numbers and words, the lines of a workload, and what is printed of answers and dumps.

Points are pairs of a time in whole seconds and a word, the word as the 16 hexadecimal digits that the program prints.
"""

import re
import struct
from collections import namedtuple

from monitoring.files import Wrong

LAST_SECOND = 4_294_965_599
NAME_BYTES = 255
INPUT_BYTES = 16_777_216
LANES = 8
SLOTS, MOST_SLOTS = 1_024, 16_384
GREATEST = 2**64 - 1

NUMBER = re.compile(r"0|[1-9][0-9]*")
WORD = re.compile(r"[0-9a-f]{16}")
POINT = re.compile(r"(0|[1-9][0-9]*):([0-9a-f]{16})")

Line = namedtuple("Line", "lane kind name numbers word")
Answer = namedtuple("Answer", "lane shard number kind value points")
Series = namedtuple("Series", "shard name floor points")

# Of each kind of line, the answers that it may have.
ANSWERS = {
    "put": {"stored", "late", "closed", "full", "stopped", "refused"},
    "get": {"points", "absent", "refused"},
    "del": {"gone", "absent", "stopped", "refused"},
    "flush": {"take", "stopped", "refused"},
}
BARE = {"stored", "gone", "absent", "stop", "stopped"}
COUNTED = {"late", "closed", "full", "take", "done"}
REASONS = {"name", "time", "range", "shard"}


def is_name(text):
    """Whether a text is a name of the store: 1 to 255 bytes, none of them below 33 or 127."""
    content = text.encode("utf-8")
    return 1 <= len(content) <= NAME_BYTES and all(byte > 32 and byte != 127 for byte in content)


def number_of(text):
    """The number that a text spells, or None."""
    if not NUMBER.fullmatch(text) or int(text) > GREATEST:
        return None
    return int(text)


def word_of(value):
    """The word of a double: its bits."""
    return struct.pack(">d", value).hex()


def value_of(word):
    """The double of a word."""
    return struct.unpack(">d", bytes.fromhex(word))[0]


def put_line(lane, name, time, word):
    """A put, with its end."""
    return f"{lane} put {name} {time} {word}\n"


def read_line(line):
    """A line of a workload; None where it is passed over. ValueError where it is a bad line."""
    if line == "" or line.startswith("#"):
        return None
    if line == "join":
        return Line(None, "join", None, (), None)
    words = line.split(" ")
    lane, kind, rest = number_of(words[0]), "".join(words[1:2]), words[2:]
    shape = {"put": 3, "get": 3, "del": 1, "flush": 1}.get(kind)
    if lane is None or lane >= LANES or shape != len(rest) or "" in rest:
        raise ValueError
    name = None if kind == "flush" else rest.pop(0)
    word = rest.pop() if kind == "put" else None
    numbers = tuple(number_of(text) for text in rest)
    if None in numbers or (word is not None and not WORD.fullmatch(word)):
        raise ValueError
    return Line(lane, kind, name, numbers, word)


def in_printed_order(workload):
    """The lines of a workload that are answered, in the order in which their answers are printed: by phase, and then by lane."""
    order, phase = [], []
    for number, text in workload.numbered():
        try:
            line = read_line(text)
        except ValueError:
            raise Wrong(workload.at(number), "this is not a workload line") from None
        if line is None:
            continue
        if line.kind == "join":
            order += sorted(phase, key=lambda it: it.lane)
            phase = []
        else:
            phase.append(line)
    return order + sorted(phase, key=lambda it: it.lane)


def read_points(words):
    """The points behind the word `points`: their count and each of them, with rising times. ValueError says what is wrong."""
    count, points = number_of("".join(words[:1])), []
    for word in words[1:]:
        found = POINT.fullmatch(word)
        if not found:
            raise ValueError(f"{word} is no point")
        points.append((int(found[1]), found[2]))
    if count != len(points):
        raise ValueError(f"it tells {''.join(words[:1]) or 'no'} points, and has {len(points)}")
    for (earlier, _), (later, _) in zip(points, points[1:]):
        if later <= earlier:
            raise ValueError(f"the time {later} does not rise")
    return points


def read_dumped(line):
    """A line of a dump: a Series, whose name is None where the line tells the floor of a shard alone."""
    words = line.split(" ")
    shard = number_of(words[0])
    if shard is not None and len(words) == 3 and words[1] == "floor" and number_of(words[2]) is not None:
        return Series(shard, None, int(words[2]), [])
    if shard is None or len(words) < 6 or words[2] != "floor" or words[4] != "points" or number_of(words[3]) is None:
        raise ValueError("this is no line of a dump")
    if not is_name(words[1]):
        raise ValueError(f"{words[1] or 'nothing'} is no name")
    return Series(shard, words[1], int(words[3]), read_points(words[5:]))


def read_answer(line):
    """A printed answer. ValueError says what is wrong."""
    words = line.split(" ")
    lane, (shard, colon, number) = number_of(words[0]), "".join(words[1:2]).partition(":")
    kind, rest = "".join(words[2:3]), words[3:]
    if lane is None or lane >= LANES:
        raise ValueError("this is no printed answer")
    if words[1:2] == ["-"] and kind in REASONS and not rest:
        return Answer(lane, None, None, "refused", kind, [])
    if not colon or number_of(shard) is None or number_of(number) is None:
        raise ValueError("this is no printed answer")
    place = (lane, int(shard), int(number))
    if kind == "points":
        return Answer(*place, kind, None, read_points(rest))
    if kind in BARE and not rest:
        return Answer(*place, kind, None, [])
    if kind in COUNTED and len(rest) == 1 and number_of(rest[0]) is not None:
        return Answer(*place, kind, int(rest[0]), [])
    raise ValueError("this is no printed answer")


def is_dump(text):
    """Whether a text looks like a dump, by its first line: one of printed answers has an event or `-` as its second word."""
    first = text.lines[0].split(" ") if text.lines else []
    return first[1:2] == ["floor"] or first[2:3] == ["floor"]


def read_each(text, read_one):
    """Each line of a printed text, read; what is wrong is told with its place."""
    found = []
    for number, line in text.numbered():
        try:
            found.append(read_one(line))
        except ValueError as fault:
            raise Wrong(text.at(number), fault) from None
    if not text.ended:
        raise Wrong(text.at(len(text.lines)), "the last line has no end, so the text may be cut")
    return found


def read_dump(text):
    """The series of a dump, each a Series. Lines of a shard's floor alone are passed over."""
    return [series for series in read_each(text, read_dumped) if series.name is not None]


def flushes_at(answers, place, lane):
    """How many flushes of a lane are answered from a place on, each by a take and a done or stop."""
    count = 0
    while [answer.kind for answer in answers[place:place + 1] if answer.lane == lane] == ["take"]:
        count, place = count + 1, place + 2
    return count


def flush_lines_at(order, place, lane):
    """How many lines of a lane in a row are flushes of the shard 0, from a place on."""
    count = 0
    while order[place + count:place + count + 1] == [Line(lane, "flush", None, (0,), None)]:
        count += 1
    return count


def paired(text, workload):
    """Each answer of a printed text beside the line of the workload that it answers.

    A put that is followed by a flush of its own has the answers of that behind it. They are told from those of a flush line by
    their count. A text may end early, as that of a run that was stopped.
    """
    answers, order = read_each(text, read_answer), in_printed_order(workload)
    place, pairs = 0, []
    for at, line in enumerate(order):
        if place >= len(answers):
            return pairs
        answer = answers[place]
        if answer.lane != line.lane or answer.kind not in ANSWERS[line.kind]:
            raise Wrong(text.at(place + 1), f"this is no answer to a {line.kind} of lane {line.lane}, the line of {workload.name} that is due")
        pairs.append((line, answer))
        place += 1
        if answer.kind == "take":
            place += 1
        elif answer.kind == "stored" and flushes_at(answers, place, line.lane) > flush_lines_at(order, at + 1, line.lane):
            place += 2
    if place < len(answers):
        raise Wrong(text.at(place + 1), f"{workload.name} has no line that this answers")
    return pairs


def merged(name, lists, where):
    """The points of one series out of several lists, by time. Two words at one time are wrong: the series was ended in between."""
    points = {}
    for some in lists:
        for time, word in some:
            if points.setdefault(time, word) != word:
                raise Wrong(where, f"{name} has two words at {time}, so it was ended in between: take one answer alone")
    return sorted(points.items())


def read_answered(text, workload):
    """The series that the gets of a run were answered with: pairs of a name, as it is first spelled, and points."""
    lists, spelled = {}, {}
    for line, answer in paired(text, workload):
        if answer.kind == "points":
            key = line.name.casefold()
            spelled.setdefault(key, line.name)
            lists.setdefault(key, []).append(answer.points)
    return [(spelled[key], merged(spelled[key], lists[key], text.name)) for key in lists]


def read_series(text, workload=None):
    """The series of a dump, or of printed answers and the workload that they answer: pairs of a name and points."""
    if workload is not None:
        return read_answered(text, workload)
    if text.lines and not is_dump(text):
        try:
            read_answer(text.lines[0])
        except ValueError:
            raise Wrong(text.at(1), "this is neither a line of a dump nor a printed answer") from None
        raise Wrong(text.at(1), "this is a printed answer, which has no name: give the workload with --workload")
    return [(series.name, series.points) for series in read_dump(text)]
