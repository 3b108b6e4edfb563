"""Charts of series."""

import os
import subprocess
import unittest
from xml.etree import ElementTree

from monitoring import chart
from monitoring.lines import word_of
from tests.common import FAKE, MACHINE, ROOT, TOOLS, InFolder, program, tool

SVG = "{http://www.w3.org/2000/svg}"


def points(*pairs):
    return [(time, word_of(value)) for time, value in pairs]


def dump(*series):
    """The text of a dump of these series, each a name and pairs of a time and a number."""
    def line(name, pairs):
        return f"0 {name} floor 0 points {len(pairs)}" + "".join(f" {time}:{word}" for time, word in points(*pairs)) + "\n"
    return "".join(line(name, pairs) for name, pairs in series)


def parts(text, kind):
    return [part for part in ElementTree.fromstring(text).iter(SVG + kind)]


def lines_of(text):
    """The points of each line of a picture, without those of its legend."""
    found = [[tuple(map(float, place.split(","))) for place in part.get("points").split()] for part in parts(text, "polyline")]
    return [line for line in found if not (len(line) == 2 and line[1][0] - line[0][0] == 24 and line[0][1] == line[1][1])]


class Curves(unittest.TestCase):
    def pieces(self, *times):
        return [[time for time, _ in piece] for piece in chart.curve_of("a", points(*((time, 1.0) for time in times))).pieces]

    def test_a_gap_is_more_than_three_steps(self):
        self.assertEqual(self.pieces(0, 10, 20, 50, 60), [[0, 10, 20, 50, 60]])
        self.assertEqual(self.pieces(0, 10, 20, 51, 61), [[0, 10, 20], [51, 61]])
        self.assertEqual(self.pieces(5), [[5]])
        self.assertEqual(self.pieces(), [])

    def test_what_is_no_finite_number_is_left_out(self):
        curve = chart.curve_of("a", points((0, 1.0), (10, float("nan")), (20, float("inf")), (30, 2.0)))
        self.assertEqual((curve.pieces, curve.left_out), ([[(0, 1.0), (30, 2.0)]], 2))

    def test_ticks_of_values(self):
        wanted = {(0, 10): [0, 2, 4, 6, 8, 10], (-1, 1): [-1, -0.5, 0, 0.5, 1], (0, 60): [0, 10, 20, 30, 40, 50, 60]}
        for (low, high), ticks in wanted.items():
            self.assertEqual(chart.value_ticks(chart.Span(low, high)), ticks)
        self.assertEqual([chart.value_text(value) for value in (0, 0.25, -3, 9999, 12_500, 3e9, 1e20)], ["0", "0.25", "-3", "9999", "12.5k", "3G", "1e+20"])

    def test_spans_have_room(self):
        self.assertEqual(chart.widened(3, 9.5), chart.Span(2, 10))
        self.assertEqual(chart.widened(4, 4), chart.Span(2, 6))
        for low, high in ((0, 0), (-1.7e308, 1.7e308), (5e-324, 5e-324), (0, 5e-324), (1e300, 1.0000001e300), (1e16, 1e16 + 2)):
            span = chart.widened(float(low), float(high))
            self.assertTrue(span.low <= low and high <= span.high and span.low < span.high, (low, high, span))
            self.assertGreaterEqual(len(chart.value_ticks(span)), 2)

    def test_ticks_of_times_are_in_utc(self):
        ticks, step = chart.time_ticks(chart.Span(1427162462, 1427162762), 8)
        self.assertEqual([chart.time_text(second, step) for second in ticks], ["02:02", "02:03", "02:04", "02:05", "02:06"])
        self.assertEqual(chart.time_ticks(chart.Span(0, 4294965599), 8)[1], 10_000 * chart.DAY)
        self.assertEqual(chart.days_text(chart.Span(0, 4294965599)), "1970-01-01 00:00:00 to 2106-02-07 05:59:59 UTC")


class Pictures(InFolder):
    def test_a_series_lies_where_its_points_say(self):
        status, picture, errors = tool("plot", "--width", "800", given=dump(("a", [(0, 0.0), (60, 10.0), (120, 5.0)])))
        self.assertEqual((status, errors), (0, ""))
        line, = lines_of(picture)
        self.assertEqual([across for across, _ in line], [70.0, 425.0, 780.0])
        low, high, middle = (down for _, down in line)
        self.assertEqual((high, middle), (40.0, (low + high) / 2))

    def test_a_gap_breaks_the_line(self):
        given = dump(("a", [(0, 1.0), (10, 2.0), (20, 3.0), (90, 4.0), (100, 5.0)]))
        self.assertEqual([len(line) for line in lines_of(tool("plot", given=given)[1])], [3, 2])

    def test_a_point_alone_is_a_dot(self):
        picture = tool("plot", given=dump(("a", [(5, 1.0)])))[1]
        self.assertEqual((len(parts(picture, "circle")), len(lines_of(picture))), (1, 0))

    def test_the_legend_has_each_name(self):
        picture = tool("plot", "--title", "<two> & \x01more", given=dump(('a{b="<&"}', [(1, 1.0), (2, 2.0)]), ("b", [(1, 1.0), (2, 2.0)])))[1]
        told = [part.text for part in parts(picture, "text")]
        for wanted in ('a{b="<&"}', "b", "<two> & ?more", "1970-01-01 00:00:01 to 1970-01-01 00:00:02 UTC"):
            self.assertIn(wanted, told)
        self.assertEqual(len({part.get("stroke") for part in parts(picture, "polyline")}), 2)

    def test_series_are_chosen(self):
        given = dump(*((name, [(1, 1.0), (2, 2.0)]) for name in ("cpu.0", "cpu.1", "mem", "m[x]")))
        def legend(*words):
            return [line for line in tool("plot", "--text", *words, given=given)[1].splitlines() if line[1:2] == " " and line[0] != " "]
        self.assertEqual(legend(), ["* cpu.0", "o cpu.1", "+ mem", "x m[x]"])
        self.assertEqual(legend("--series", "mem", "--series", "cpu.?"), ["* mem", "o cpu.0", "+ cpu.1"])
        self.assertEqual(legend("--series", "m[x]"), ["* m[x]"])
        self.assertEqual(tool("plot", "--series", "disk", given=given)[::2], (1, "plot: standard input: no series is called disk\n"))

    def test_a_range_is_chosen(self):
        given = dump(("a", [(second, float(second)) for second in range(0, 100, 10)]))
        line, = lines_of(tool("plot", "--from", "20", "--to", "50", given=given)[1])
        self.assertEqual(len(line), 4)
        self.assertEqual(tool("plot", "--from", "91", given=given)[::2], (1, "plot: standard input: no series has a finite number in this range\n"))
        self.assertEqual(tool("plot", "--from", "2", "--to", "1", given=given)[0], 1)

    def test_a_chart_of_characters(self):
        status, drawn, _ = tool("plot", "--text", "--width", "51", "--height", "5", "--title", "up", given=dump(("a", [(0, 0.0), (10, 1.0), (20, 2.0)])))
        rows = drawn.splitlines()
        self.assertEqual((status, rows[0]), (0, "up"))
        self.assertEqual(rows[2:8], [
            "         2|" + " " * 39 + "*", "       1.5|", "         1|" + " " * 20 + "*", "       0.5|", "         0|*", " " * 10 + "+" + "-" * 40])
        self.assertTrue(rows[8].lstrip().startswith("00:00:00"))
        self.assertEqual(rows[-1], "* a")

    def test_words_that_are_no_numbers_are_told(self):
        status, _, errors = tool("plot", given=dump(("a", [(1, float("nan")), (2, 1.0)])))
        self.assertEqual((status, errors), (0, "plot: a: 1 words are no finite number; left out\n"))

    def test_too_many_series_are_refused(self):
        many = dump(*((f"a{number}", [(1, 1.0)]) for number in range(chart.MOST + 1)))
        status, drawn, errors = tool("plot", given=many)
        self.assertEqual((status, drawn, errors), (1, "", "plot: standard input: 25 series are too many to tell apart; 24 is the most: choose some by --series\n"))
        self.assertEqual(tool("plot", "--height", "100", "--series", "a?", given=many)[0], 1)
        self.assertGreaterEqual(len(set(chart.LETTERS)), chart.MOST)

    def test_wrong_input_and_words(self):
        bad = self.file("bad", "0 a floor 0 points 1 1:0000000000000000\n0 b floor 0 points 2 1:0000000000000000\n")
        out = self.file("out", "as before")
        self.assertEqual(tool("plot", bad, "--output", out), (1, "", f"plot: {bad}:2: it tells 2 points, and has 1\n"))
        self.assertEqual((self.text("out"), sorted(os.listdir(self.folder))), ("as before", ["bad", "out"]))
        for words in (["--width", "x"], ["--width", "39"], ["a", "b"], ["--from", "-1"], ["--watch"]):
            self.assertEqual(tool("plot", *words)[0], 2, words)

    def test_a_cut_output_is_told(self):
        with open("/dev/full", "wb") as full:
            status, _, errors = tool_into(full, dump(("a", [(1, 1.0)])))
        self.assertEqual((status, errors), (1, "plot: standard output: no space left on device\n"))


def tool_into(file, given):
    """Calls the tool with another standard output."""
    done = subprocess.run([os.path.join(TOOLS, "plot")], input=given.encode(), stdout=file, stderr=subprocess.PIPE, check=False)
    return done.returncode, "", done.stderr.decode()


class Machine(InFolder):
    """The example has a gap, which its picture shows; docs/machine.svg is made from it."""

    def test_the_gap(self):
        program(FAKE, "run", given=tool("openmetrics", "to-workload", MACHINE)[1], folder=self.folder)
        shown = program(FAKE, "dump", folder=self.folder)[1]
        picture = tool("plot", "--series", "linux_load1", given=shown)[1]
        self.assertEqual([len(line) for line in lines_of(picture)], [9, 9])
        with open(os.path.join(ROOT, "docs", "machine.svg"), encoding="utf-8") as file:
            kept = file.read()
        title = ElementTree.fromstring(kept).find(SVG + "title").text
        self.assertEqual(tool("plot", "--series", "linux_load*", "--title", title, given=shown)[1], kept)
