"""Lines of workloads, answers and dumps."""

import unittest

from monitoring.files import Text, Wrong, text_of
from monitoring.lines import Line, is_name, paired, read_answer, read_dump, read_dumped, read_line, read_series, value_of, word_of
from monitoring.plain_map import PlainMap, Run, prefixes_of
from tests.common import GORILLA, NEEDS_PROGRAM, InFolder, example, program

GOOD_LINES = {
    "": None,
    "# put": None,
    "join": Line(None, "join", None, (), None),
    "0 put a 10 00000000000000ff": Line(0, "put", "a", (10,), "00000000000000ff"),
    "7 get a 0 18446744073709551615": Line(7, "get", "a", (0, 2**64 - 1), None),
    "3 del a": Line(3, "del", "a", (), None),
    "0 flush 15": Line(0, "flush", None, (15,), None),
}
BAD_LINES = [
    "join ", " join", "8 del a", "0  del a", "0 del", "0 del a b", "0 put a 01 0000000000000000", "0 put a 1 000000000000000",
    "0 put a 1 000000000000000F", "0 get a 1", "0 get a 0 18446744073709551616", "0 flush x", "0 finish 0 1", "-1 del a", "join\r",
]
BAD_DUMPS = {
    "0 a floor 0 points 2 1:0000000000000000": "tells 2 points, and has 1",
    "0 a floor 0 points 2 1:0000000000000000 1:0000000000000000": "does not rise",
    "0 a floor 0 points 1 1:00000000000000": "is no point",
    "0 a floor 0 points": "no line of a dump",
    "0 a\x01 floor 0 points 0": "is no name",
    "x a floor 0 points 0": "no line of a dump",
}
BAD_ANSWERS = ["", "0", "0 0:1", "0 0 stored", "8 0:1 stored", "0 0:1 stored 1", "0 0:1 late", "0 - names", "0 0:01 stored", "0 0:1 done x"]

NAMES_ANSWERS = """0 0:0 stored
0 0:1 stored
0 0:2 points 2 100:0000000000000001 101:0000000000000002
0 0:3 stored
0 0:4 gone
0 0:5 stored
0 0:6 points 1 500:0000000000000002
0 0:7 absent
"""
FIRST_ANSWERS = """0 0:0 stored
0 0:1 stored
0 0:2 stored
0 0:3 late 1427162522
0 0:4 stored
0 0:5 points 2 1427162522:4028000000000000 1427162582:4038000000000000
0 0:6 points 1 1427162470:41d0000000000000
0 0:7 absent
"""
RESTART = """0 0:0 stored
0 0:1 stored
0 0:2 points 2 1427162462:4028000000000000 1427162522:4038000000000000
0 0:3 take 2
0 0:4 done 2
"""
RESTART_DUMP = "0 web01.cpu floor 0 points 2 1427162462:4028000000000000 1427162522:4038000000000000\n"


class ReadLines(unittest.TestCase):
    def test_lines_of_the_grammar_are_read(self):
        for text, line in GOOD_LINES.items():
            self.assertEqual(read_line(text), line, text)

    def test_other_lines_are_bad(self):
        for text in BAD_LINES:
            with self.assertRaises(ValueError, msg=text):
                read_line(text)

    def test_names_have_their_limits(self):
        wanted = {"a": True, "": False, "a b": False, "a\x7f": False, "é" * 127 + "a": True, "é" * 128: False, "x" * 255: True, "x" * 256: False}
        self.assertEqual({name: is_name(name) for name in wanted}, wanted)

    def test_words_are_bits_of_doubles(self):
        self.assertEqual((word_of(12.0), value_of("4028000000000000"), word_of(-0.0)), ("4028000000000000", 12.0, "8000000000000000"))

    def test_bytes_that_are_no_utf8_are_told_with_their_line(self):
        with self.assertRaisesRegex(Wrong, "^x:2: this line is not UTF-8$"):
            text_of("x", b"a\nb\xff\n")


class ReadPrinted(unittest.TestCase):
    def test_a_dump_is_read(self):
        text = Text("dump", "0 floor 7200\n0 a floor 7200 points 0\n1 0:2 floor 0 points 1 5:00000000000000ff\n")
        self.assertEqual(read_dump(text), [(0, "a", 7200, []), (1, "0:2", 0, [(5, "00000000000000ff")])])

    def test_wrong_dumps_are_told(self):
        for line, what in BAD_DUMPS.items():
            with self.assertRaisesRegex(ValueError, what, msg=line):
                read_dumped(line)

    def test_wrong_answers_are_told(self):
        for line in BAD_ANSWERS:
            with self.assertRaises(ValueError, msg=line):
                read_answer(line)

    def test_a_cut_text_is_told(self):
        with self.assertRaisesRegex(Wrong, "^dump:2: the last line has no end"):
            read_dump(Text("dump", "0 a floor 0 points 0\n0 b floor 0 points 0"))

    def test_answers_need_a_workload(self):
        with self.assertRaisesRegex(Wrong, "^out:1: .*--workload"):
            read_series(Text("out", RESTART))
        with self.assertRaisesRegex(Wrong, "^out:1: this is neither"):
            read_series(Text("out", "hello there\n"))

    def test_answers_have_the_names_of_their_lines(self):
        found = read_series(Text("out", FIRST_ANSWERS), Text("first", example("first.workload")))
        self.assertEqual([(name, [time for time, _ in points]) for name, points in found],
                         [("web01.cpu", [1427162522, 1427162582]), ("web01.mem", [1427162470])])

    def test_lanes_are_printed_one_after_another(self):
        workload = Text("w", "1 get b 0 9\n0 get a 0 9\njoin\n0 get c 0 9\n")
        printed = Text("o", "0 0:1 points 1 1:0000000000000001\n1 0:0 points 1 2:0000000000000002\n0 0:2 absent\n")
        self.assertEqual([name for name, _ in read_series(printed, workload)], ["a", "b"])

    def test_a_flush_line_is_not_taken_for_a_put_s(self):
        printed = Text("o", "0 0:0 stored\n0 0:1 take 1\n0 0:2 done 1\n0 0:3 absent\n")
        kinds = [line.kind for line, _ in paired(printed, Text("w", "0 put a 1 0000000000000001\n0 flush 0\n0 get b 0 1\n"))]
        self.assertEqual(kinds, ["put", "flush", "get"])

    def test_a_flush_of_a_put_is_not_taken_for_a_line(self):
        due = Text("o", "0 0:0 stored\n0 0:1 take 1\n0 0:2 done 1\n0 0:3 take 0\n0 0:4 done 1\n0 0:5 absent\n")
        kinds = [line.kind for line, _ in paired(due, Text("w", "0 put a 1 0000000000000001\n0 flush 0\n0 get b 0 1\n"))]
        self.assertEqual(kinds, ["put", "flush", "get"])
        due = Text("o", "0 0:0 stored\n0 0:1 take 1\n0 0:2 done 1\n0 - shard\n0 0:3 take 0\n0 0:4 done 1\n")
        kinds = [line.kind for line, _ in paired(due, Text("w", "0 put a 1 0000000000000001\n0 flush 5\n0 flush 0\n"))]
        self.assertEqual(kinds, ["put", "flush", "flush"])

    def test_an_answer_to_another_line_is_told(self):
        with self.assertRaisesRegex(Wrong, "^o:1: this is no answer to a get of lane 0"):
            paired(Text("o", "0 0:0 stored\n"), Text("w", "0 get a 0 1\n"))
        with self.assertRaisesRegex(Wrong, "^o:2: w has no line that this answers"):
            paired(Text("o", "0 0:0 absent\n0 0:1 absent\n"), Text("w", "0 get a 0 1\n"))
        with self.assertRaisesRegex(Wrong, "^w:2: this is not a workload line"):
            paired(Text("o", ""), Text("w", "\n0 got a 0 1\n"))

    def test_a_series_with_two_words_at_one_time_is_told(self):
        workload, printed = Text("w", example("names.workload")), NAMES_ANSWERS.replace("500:", "100:").replace("points 1 100", "points 1 500")
        self.assertEqual([name for name, _ in read_series(Text("o", printed), workload)], ["Cpu", "a"])
        twice = Text("o", "0 0:0 points 1 1:0000000000000001\n0 0:1 points 1 1:0000000000000002\n")
        with self.assertRaisesRegex(Wrong, "^o: a has two words at 1"):
            read_series(twice, Text("w", "0 get a 0 1\n0 get A 0 1\n"))


class PlainMaps(unittest.TestCase):
    """The map gives the answers of the pages."""

    def answers(self, workload, start=None):
        run = Run(start or PlainMap())
        for text in workload.splitlines():
            line = read_line(text)
            if line and line.kind != "join":
                run.take_line(line)
        return "".join(f"{printed}\n" for printed, _ in run.printed), run

    def test_worked_examples(self):
        self.assertEqual(self.answers(example("first.workload"))[0], FIRST_ANSWERS)
        self.assertEqual(self.answers(example("names.workload").rpartition("join\n")[0])[0], NAMES_ANSWERS)

    def test_a_restart(self):
        text, run = self.answers(example("restart.workload"))
        self.assertEqual(text, RESTART)
        again, _ = self.answers(example("restart.workload"), run.map)
        self.assertEqual(again.splitlines()[:2] + again.splitlines()[3:], ["0 0:0 late 1427162522", "0 0:1 late 1427162522", "0 0:3 take 0", "0 0:4 done 0"])

    def test_a_put_that_makes_a_flush_due(self):
        text, _ = self.answers("".join(f"0 put a {second} 0000000000000001\n" for second in range(3122)))
        self.assertEqual(text.splitlines()[3120:], ["0 0:3120 stored", "0 0:3121 take 3121", "0 0:3122 done 3121", "0 0:3123 stored"])

    def test_full(self):
        text, _ = self.answers("".join(f"0 put a{number} 1 0000000000000001\n" for number in range(1025)))
        self.assertEqual(text.splitlines()[1023:], ["0 0:1023 stored", "0 0:1024 full 1024"])

    def test_prefixes(self):
        _, run = self.answers("0 put a 1 0000000000000001\n0 put b 1 0000000000000001\n0 del b\n0 put a 2 0000000000000002\n")
        one, other = (1, "0000000000000001"), (2, "0000000000000002")
        cases = {
            (): [0],
            (("a", (one,)),): [1, 3],
            (("a", (one,)), ("b", (one,))): [2],
            (("a", (one, other)),): [4],
            (("A", (one, other)),): [],
            (("a", (other,)),): [],
            (("b", (one,)),): [],
        }
        for series, numbers in cases.items():
            self.assertEqual(prefixes_of(PlainMap(), run.changes, PlainMap(series)), numbers, series)

    def test_prefixes_of_a_start(self):
        start = PlainMap([("a", [(1, "0000000000000001")])])
        _, run = self.answers("0 del A\n0 put A 1 0000000000000001\n", start)
        self.assertEqual(prefixes_of(start, run.changes, start), [0])
        self.assertEqual(prefixes_of(start, run.changes, PlainMap([("A", [(1, "0000000000000001")])])), [2])


@NEEDS_PROGRAM
class WithTheProgram(InFolder):
    def test_its_text_is_the_plain_map_s(self):
        status, text, errors = program(GORILLA, "run", "--shards", "1", given=example("first.workload"), folder=self.folder)
        self.assertEqual((status, text, errors), (0, FIRST_ANSWERS, ""))

    def test_its_dump_is_read(self):
        program(GORILLA, "run", "--shards", "1", given=example("restart.workload"), folder=self.folder)
        status, text, _ = program(GORILLA, "dump", folder=self.folder)
        self.assertEqual((status, text), (0, RESTART_DUMP))
        self.assertEqual([series.name for series in read_dump(Text("dump", text))], ["web01.cpu"])
