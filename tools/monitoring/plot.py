"""Series of a dump, or of printed answers, as a picture or as a chart of characters."""

import argparse
import fnmatch

from monitoring import chart
from monitoring.files import OK, Wrong, count_from, ended, read, tell, write
from monitoring.lines import LAST_SECOND, read_series

TOOL = "plot"

USAGE = """examples:
  ./gorilla dump > machine.dump
  tools/plot machine.dump --series 'linux_load*' --output load.svg
  tools/plot machine.dump --series linux_load1 --text

A word is shown as the double that it is the bits of. What is no finite number is left out, and told. A line has a gap where no
point is for three steps of its series; a step is the middle one of the distances of its points."""


def chosen(series, patterns, where):
    """The series whose name is one of the patterns or is matched by one, in the order of the patterns; all where there are none."""
    if not patterns:
        return series
    found = []
    for pattern in patterns:
        some = [it for it in series if it[0] == pattern] or [it for it in series if fnmatch.fnmatchcase(it[0], pattern)]
        if not some:
            raise Wrong(where, f"no series is called {pattern}")
        found += [it for it in some if it not in found]
    return found


def plot(words):
    """Reads, chooses and draws."""
    source = read(words.file)
    series = chosen(read_series(source, read(words.workload) if words.workload is not None else None), words.series, source.name)
    if words.first > words.last:
        raise Wrong(source.name, f"the range from {words.first} to {words.last} is empty")
    curves = []
    for name, points in series:
        curve = chart.curve_of(name, [point for point in points if words.first <= point[0] <= words.last])
        curves.append(curve)
        if curve.left_out:
            tell(TOOL, f"{name}: {curve.left_out} words are no finite number; left out")
    title = words.title if words.title is not None else source.name
    try:
        if words.text:
            drawn = chart.text(curves, title, words.width or 100, words.height or 20)
        else:
            drawn = chart.svg(curves, title, words.width or 800, words.height or 320 + 16 * len(curves))
    except ValueError as fault:
        raise Wrong(source.name, fault) from None
    write(words.output, drawn)
    return OK


def read_words(given):
    """The words of the command line."""
    parser = argparse.ArgumentParser(prog=TOOL, description=__doc__, epilog=USAGE, formatter_class=argparse.RawDescriptionHelpFormatter)
    parser.add_argument("file", nargs="?", default="-", metavar="FILE", help="a dump, or printed answers; - or none is standard input")
    parser.add_argument("--workload", metavar="FILE", help="the workload that the printed answers answer, which has the names")
    parser.add_argument("--series", action="append", metavar="NAME", help="show this series, or those that a pattern with * and ? matches; may be given again")
    parser.add_argument("--from", dest="first", type=count_from(0, LAST_SECOND), default=0, metavar="SECOND", help="show no point before it")
    parser.add_argument("--to", dest="last", type=count_from(0, LAST_SECOND), default=LAST_SECOND, metavar="SECOND", help="show no point after it")
    parser.add_argument("--text", action="store_true", help="a chart of characters")
    parser.add_argument("--title", metavar="TEXT", help="the title; the file's name unless given")
    parser.add_argument("--width", type=count_from(40, 10_000), metavar="N", help="pixels, or characters: 800 or 100 unless given")
    parser.add_argument("--height", type=count_from(5, 10_000), metavar="N", help="pixels with the legend, or rows of characters without it")
    parser.add_argument("--output", metavar="FILE", help="the file to write; standard output unless given")
    return parser.parse_args(given)


def main(given=None):
    """The tool; returns its status."""
    words = read_words(given)
    return ended(TOOL, lambda: plot(words))
