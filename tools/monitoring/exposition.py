"""Texts of metrics: OpenMetrics, and the text form of Prometheus. What they say, and the names that the store has for it.

A name is the metric's, and its labels in the order of their names, as `up{job="node"}`. Names that differ in case alone are one
series to the store, so a name here has no upper-case letter: `^m` stands for M, and `%20` for a byte of UTF-8 that a name may not
have, or that means something here. So each metric with its labels has one name, two of them never have the same, and a name is
its own key. A label without a value is no label.
"""

import re
from collections import namedtuple
from decimal import Decimal

from monitoring.files import Wrong
from monitoring.lines import LAST_SECOND, NAME_BYTES, value_of, word_of

Sample = namedtuple("Sample", "place scrape name second word whole")
Format = namedtuple("Format", "name scale")

# The two forms, and how many parts of a second their times count.
OPENMETRICS = Format("openmetrics", 1)
PROMETHEUS = Format("prometheus", 1000)
EOF = "# EOF"

METRIC = re.compile(r"[a-zA-Z_:][a-zA-Z0-9_:]*")
LABEL = re.compile(r"[a-zA-Z_][a-zA-Z0-9_]*")
QUOTED = re.compile(r'"((?:[^"\\]|\\.)*)"')
ESCAPE = re.compile(r"\\(.)")
FLOAT = re.compile(r"[+-]?(?:[0-9]+\.?[0-9]*|\.[0-9]+)(?:[eE][+-]?[0-9]+)?")
LIMITLESS = {"nan": "nan", "inf": "inf", "+inf": "inf", "-inf": "-inf", "infinity": "inf", "+infinity": "inf", "-infinity": "-inf"}
BLANKS = re.compile(r"[ \t]*")
TOKEN = re.compile(r"[^ \t]+")

SPELLED = re.compile(r'([^{}"]+)(?:\{(.*)\})?')
SPELLED_LABEL = re.compile(r'([^{}",=]+)="([^"]*)"')
SPELLED_BYTE = re.compile(r"\^([a-z])|%([0-9a-f]{2})|(.)", re.DOTALL)
NEVER_PLAIN = set('^%"') | {chr(letter) for letter in range(ord("A"), ord("Z") + 1)}
MARKS = set("{},=")


def escaped(text, special):
    """A text as a part of a name: upper-case letters with ^, and what is special or no visible ASCII in hexadecimal."""
    parts = []
    for char in text:
        if "A" <= char <= "Z":
            parts.append("^" + char.lower())
        elif "!" <= char <= "~" and char not in special and char not in NEVER_PLAIN:
            parts.append(char)
        else:
            parts.extend(f"%{byte:02x}" for byte in char.encode("utf-8"))
    return "".join(parts)


def unescaped(text):
    """The text of a part of a name. ValueError where its bytes are no UTF-8."""
    content = bytearray()
    for letter, byte, plain in SPELLED_BYTE.findall(text):
        content += letter.upper().encode() if letter else bytes([int(byte, 16)]) if byte else plain.encode()
    return content.decode("utf-8")


def name_of(metric, labels):
    """The store's name of a metric with these pairs of labels and values."""
    inner = ",".join(f'{escaped(label, MARKS)}="{escaped(value, "")}"' for label, value in sorted(labels) if value)
    return escaped(metric, MARKS) + (f"{{{inner}}}" if inner else "")


def read_name(name):
    """The metric and labels that a name of the store stands for. ValueError where `name_of` gives no such name."""
    found = SPELLED.fullmatch(name)
    if found:
        labels = [(unescaped(label), unescaped(value)) for label, value in SPELLED_LABEL.findall(found[2] or "")]
        metric = unescaped(found[1])
        if name_of(metric, labels) == name:
            return metric, labels
    raise ValueError


def unquoted(text):
    """What stands between quotes: a backslash, a quote and the end of a line are written behind a backslash."""
    def char(found):
        if found[1] not in '\\"n':
            raise ValueError(f"the text \"{text}\" has \\{found[1]}, which is no escape")
        return "\n" if found[1] == "n" else found[1]
    return ESCAPE.sub(char, text)


def quoted(text):
    """A text between quotes."""
    escapes = {"\\": "\\\\", '"': '\\"', "\n": "\\n"}
    return '"' + "".join(escapes.get(char, char) for char in text) + '"'


class Scanner:
    """Walks over a line. Each call takes what stands next, or raises ValueError with what is wrong there."""

    def __init__(self, line):
        self.line, self.at = line, 0

    def found(self, pattern):
        """What a pattern finds next, behind blanks; None where it finds nothing."""
        self.at = BLANKS.match(self.line, self.at).end()
        found = pattern.match(self.line, self.at)
        self.at = found.end() if found else self.at
        return found

    def has(self, mark):
        """Takes a mark that stands next, and tells whether it does."""
        self.at = BLANKS.match(self.line, self.at).end()
        if not self.line.startswith(mark, self.at):
            return False
        self.at += len(mark)
        return True

    def rest(self):
        """What is left, for a message."""
        return self.line[self.at:].strip() or "the end of the line"


def read_labels(scanner):
    """The labels up to the closing brace, and the metric's name where it stands quoted among them."""
    metric, labels = None, []
    while not scanner.has("}"):
        text = scanner.found(QUOTED)
        label = unquoted(text[1]) if text else (scanner.found(LABEL) or [None])[0]
        if label is None or (not label and text):
            raise ValueError(f"a label is wanted before {scanner.rest()}")
        if scanner.has("="):
            value = scanner.found(QUOTED)
            if not value:
                raise ValueError(f"a quoted value of the label {label} is wanted before {scanner.rest()}")
            labels.append((label, unquoted(value[1])))
        elif text and metric is None:
            metric = label
        else:
            raise ValueError(f"= is wanted behind the label {label}")
        if not scanner.has(",") and not scanner.line.startswith("}", scanner.at):
            raise ValueError(f"a comma or closing brace is wanted before {scanner.rest()}")
    names = [label for label, _ in labels]
    for label in names:
        if names.count(label) > 1:
            raise ValueError(f"the label {label} stands twice")
    return metric, labels


def read_value(text):
    """The word of a value."""
    if text.lower() in LIMITLESS:
        return word_of(float(LIMITLESS[text.lower()]))
    if not FLOAT.fullmatch(text):
        raise ValueError(f"{text} is no number")
    value = float(text)
    if value in (float("inf"), float("-inf")):
        raise ValueError(f"{text} is beyond all doubles")
    return word_of(value)


def read_time(text, scale):
    """The whole second of a time, and whether nothing was rounded off. A second has `scale` parts."""
    if not FLOAT.fullmatch(text) or (scale != 1 and "." in text):
        raise ValueError(f"{text} is no time")
    time = Decimal(text) / scale
    if not 0 <= time < LAST_SECOND + 1:
        raise ValueError(f"the time {text} is not within 0 to {LAST_SECOND} seconds")
    return int(time), time == int(time)


def read_sample(line, scale, at):
    """A line that is no comment: its name, second, word, and whether its time was whole. `at` is the second where none is told."""
    scanner = Scanner(line)
    plain = scanner.found(METRIC)
    metric, labels = plain[0] if plain else None, []
    if scanner.has("{"):
        inner, labels = read_labels(scanner)
        if (inner is None) == (metric is None):
            raise ValueError("one name of a metric is wanted")
        metric = metric or inner
    if metric is None:
        raise ValueError(f"a name of a metric is wanted before {scanner.rest()}")
    word = read_value((scanner.found(TOKEN) or ["nothing"])[0])
    is_done = scanner.has("#") or scanner.at == len(scanner.line)
    time = None if is_done else scanner.found(TOKEN)
    if time and not scanner.has("#") and scanner.rest() != "the end of the line":
        raise ValueError(f"behind the time stands {scanner.rest()}")
    if time is None and at is None:
        raise ValueError("the sample has no time: --at gives one to all that have none")
    second, whole = read_time(time[0], scale) if time else (at, True)
    name = name_of(metric, labels)
    if len(name) > NAME_BYTES:
        raise ValueError(f"the name has {len(name)} bytes, and {NAME_BYTES} is the most: {name}")
    return name, second, word, whole


def format_of(text):
    """The form of a text: an OpenMetrics one has a line `# EOF` behind each scrape."""
    return OPENMETRICS if EOF in text.lines else PROMETHEUS


def read_samples(text, form=None, at=None, first=0):
    """The samples of a text in their order, with the scrape that each is in, from `first` on.

    A scrape ends at `# EOF`, at the end of the text, and in a text of Prometheus before a metric's second TYPE.
    """
    form, scrape, types, is_open = form or format_of(text), first, set(), False
    for number, line in text.numbered():
        stripped = line.strip(" \t\r")
        if stripped == EOF and form is OPENMETRICS:
            scrape, is_open = scrape + 1, False
        elif stripped.startswith("# TYPE ") and form is PROMETHEUS:
            kind = stripped.split()[2:3]
            if kind and kind[0] in types:
                scrape, types = scrape + 1, set()
            types.update(kind)
        elif stripped and not stripped.startswith("#"):
            is_open = True
            try:
                name, second, word, whole = read_sample(stripped, form.scale, at)
            except ValueError as fault:
                raise Wrong(text.at(number), fault) from None
            yield Sample(text.at(number), scrape, name, second, word, whole)
    if form is OPENMETRICS and is_open:
        raise Wrong(text.at(len(text.lines)), f"no {EOF} ends the last scrape, so the text may be cut")


def written_value(word):
    """The shortest number that is read as this word's double."""
    value = value_of(word)
    if value != value:
        return "NaN"
    return {float("inf"): "+Inf", float("-inf"): "-Inf"}.get(value, repr(value))


def written_metric(metric, labels):
    """A metric with its labels in OpenMetrics; a name that is none there stands quoted, as Prometheus 3 has it."""
    inner = [] if METRIC.fullmatch(metric) else [quoted(metric)]
    inner += [f"{label if LABEL.fullmatch(label) else quoted(label)}={quoted(value)}" for label, value in labels]
    return ("" if inner and not METRIC.fullmatch(metric) else metric) + (f"{{{','.join(inner)}}}" if inner else "")


def written(series, where):
    """An OpenMetrics text of these series, each a name and points; those of a metric stand together."""
    metrics = []
    for name, points in series:
        try:
            metrics.append((*read_name(name), points))
        except ValueError:
            raise Wrong(where, f"{name} is no name that to-workload gives: it may have upper-case letters") from None
    metrics.sort(key=lambda it: it[:2])
    lines = [f"{written_metric(metric, labels)} {written_value(word)} {time}\n" for metric, labels, points in metrics for time, word in points]
    return "".join(lines) + EOF + "\n"
