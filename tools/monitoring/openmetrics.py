"""Texts of metrics to lines of a workload, and dumps or printed answers back to OpenMetrics."""

import argparse
from collections import namedtuple

from monitoring import exposition
from monitoring.files import OK, Wrong, count_from, ended, read, tell, write, write_all
from monitoring.lines import INPUT_BYTES, LANES, LAST_SECOND, MOST_SLOTS, SLOTS, put_line, read_series

TOOL = "openmetrics"
FORMS = {"auto": None, "openmetrics": exposition.OPENMETRICS, "prometheus": exposition.PROMETHEUS}

Made = namedtuple("Made", "lines late rounded series")

USAGE = """examples:
  tools/openmetrics to-workload examples/machine.metrics > machine.workload
  ./gorilla run --shards 1 < machine.workload > machine.out
  ./gorilla dump > machine.dump
  tools/openmetrics from-dump machine.dump > machine.again

A series is named by its metric and its labels in one spelling without spaces, such as up{job="node"}. Upper-case letters are
written as ^ and the small letter, and what else a name may not have in hexadecimal, as %20. The word is the double's bits, the
time is the whole second. Comments, types and exemplars are not kept. A name of more than 255 bytes is refused with its line."""


def samples_of(texts, form, at):
    """The samples of all texts in order; their scrapes are counted on from text to text."""
    first = 0
    for text in texts:
        scrape = first - 1
        for sample in exposition.read_samples(text, form, at, first):
            scrape = sample.scrape
            yield sample
        first = scrape + 1


def workload_lines(samples, lanes, each):
    """The puts of these samples, and a `join` before every scrape that `each` of them came before; no join where `each` is 0.

    The series are dealt to so many lanes as they come. A sample that is not later than the last one of its series is left out.
    """
    lines, late, rounded, lasts, joined = [], [], 0, {}, 0
    for sample in samples:
        if each and sample.scrape // each != joined:
            joined = sample.scrape // each
            if lines:
                lines.append("join\n")
        lane, last = lasts.get(sample.name, (len(lasts) % lanes, -1))
        if sample.second <= last:
            late.append((sample, last))
            continue
        rounded += not sample.whole
        lasts[sample.name] = lane, sample.second
        lines.append(put_line(lane, sample.name, sample.second, sample.word))
    return Made(lines, late, rounded, len(lasts))


def parts_of(lines, most):
    """The lines in parts of at most so many bytes. No part begins or ends with a join, since each is a run of its own."""
    parts, size = [[]], 0
    for line in lines:
        length = len(line.encode("utf-8"))
        if size + length > most:
            parts.append([])
            size = 0
        if parts[-1] or line != "join\n":
            parts[-1].append(line)
            size += length
    for part in parts:
        while part and part[-1] == "join\n":
            part.pop()
    return ["".join(part) for part in parts if part] or [""]


def tell_made(made):
    """Says on standard error what was left out, and what a reader has to know to run the lines."""
    for sample, last in made.late:
        tell(TOOL, f"{sample.place}: late: {sample.name} at {sample.second}, and its last sample is at {last}; left out")
    points = sum(line != "join\n" for line in made.lines)
    tell(TOOL, f"{made.series} series, {points} points, {len(made.late)} late")
    if made.rounded:
        tell(TOOL, f"{made.rounded} times were rounded down to the whole second")
    if made.series > MOST_SLOTS:
        tell(TOOL, f"a shard has at most {MOST_SLOTS} slots, so the puts of {made.series - MOST_SLOTS} series will be answered full")
    elif made.series > SLOTS:
        tell(TOOL, f"these series need more slots than a run has by itself: run --shards 1 --slots {made.series}")


def to_workload(words):
    """Texts of metrics to lines of a workload."""
    texts = [read(path) for path in words.files or ["-"]]
    made = workload_lines(samples_of(texts, FORMS[words.format], words.at), words.lanes, words.join)
    parts = parts_of(made.lines, INPUT_BYTES)
    if len(parts) > 1 and not words.split:
        raise Wrong(words.output or "standard output", f"would have more than {INPUT_BYTES} bytes, the most that a run reads: give --split")
    if words.split:
        write_all([(f"{words.output}.{number:03}", part) for number, part in enumerate(parts)])
    else:
        write(words.output, parts[0])
    tell_made(made)
    return OK


def from_dump(words):
    """A dump or printed answers to OpenMetrics."""
    text = read(words.file)
    workload = read(words.workload) if words.workload is not None else None
    write(words.output, exposition.written(read_series(text, workload), text.name))
    return OK


def read_words(given):
    """The words of the command line."""
    parser = argparse.ArgumentParser(prog=TOOL, description=__doc__, epilog=USAGE, formatter_class=argparse.RawDescriptionHelpFormatter)
    kinds = parser.add_subparsers(dest="command", metavar="COMMAND", required=True)
    to = kinds.add_parser("to-workload", help="texts of metrics to lines of a workload")
    to.add_argument("files", nargs="*", metavar="FILE", help="texts with one scrape or many, in order; - or none is standard input")
    to.add_argument("--format", choices=FORMS, default="auto", help="openmetrics has times in seconds, prometheus in milliseconds; auto looks for # EOF")
    to.add_argument("--at", type=count_from(0, LAST_SECOND), metavar="SECOND", help="the time of samples that have none; else they are refused")
    to.add_argument("--lanes", type=count_from(1, LANES), default=1, metavar="N", help="deal the series to N lanes, from 1 to 8; 1 unless given")
    to.add_argument("--join", type=count_from(0), default=0, metavar="N", help="a join behind each N scrapes; none unless given")
    to.add_argument("--split", action="store_true", help="write parts of at most 16 MiB, FILE.000 and on, to be run in order")
    to.add_argument("--output", metavar="FILE", help="the file to write; standard output unless given")
    back = kinds.add_parser("from-dump", help="a dump or printed answers to OpenMetrics")
    back.add_argument("file", nargs="?", default="-", metavar="FILE", help="a dump, or printed answers; - or none is standard input")
    back.add_argument("--workload", metavar="FILE", help="the workload that the printed answers answer, which has the names")
    back.add_argument("--output", metavar="FILE", help="the file to write; standard output unless given")
    words = parser.parse_args(given)
    if words.command == "to-workload" and words.split and words.output is None:
        to.error("--split needs --output")
    return words


def main(given=None):
    """The tool; returns its status."""
    words = read_words(given)
    return ended(TOOL, lambda: {"to-workload": to_workload, "from-dump": from_dump}[words.command](words))
