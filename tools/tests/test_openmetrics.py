"""Texts of metrics to lines of a workload, and back."""

import contextlib
import io
import itertools
import os
import unittest
from unittest import mock

from monitoring import exposition, openmetrics
from monitoring.files import Text, Wrong
from monitoring.lines import is_name, read_line
from monitoring.openmetrics import parts_of, workload_lines
from tests.common import EXAMPLES, FAKE, GORILLA, MACHINE, NEEDS_PROGRAM, InFolder, call, example, program, tool

NAMES = {
    ("up", ()): "up",
    ("up", (("job", "node"), ("a", "1"))): 'up{a="1",job="node"}',
    ("up", (("job", ""),)): "up",
    ("MemFree", ()): "^mem^free",
    ("a", (("b", "c d\t\"\\\n"),)): 'a{b="c%20d%09%22\\%0a"}',
    ("a", (("B", "{x=y,z}"),)): 'a{^b="{x=y,z}"}',
    ("a", (("b", "Straße 100% ^"),)): 'a{b="^stra%c3%9fe%20100%25%20%5e"}',
    ("web01.cpu", ()): "web01.cpu",
    ("a{b=c,\"", ()): "a%7bb%3dc%2c%22",
}
NO_NAMES = ["CPU", "a%41", "a%5F", "a{}", 'a{b=""}', 'a{b="1",a="2"}', 'a{a="1"', "a^B", "a%", 'a{a="1"}b', "straße", "a%ff", '{a="1"}', "a=b"]

BAD_SAMPLES = {
    "a 1": "the sample has no time",
    "a x 1": "x is no number",
    "a 1_0 1": "1_0 is no number",
    "a 1e999 1": "beyond all doubles",
    "a 1 x": "x is no time",
    "a 1 -1": "is not within",
    "a 1 4294965600": "is not within",
    "a 1 1e999999": "is not within",
    "a 1 2 3": "behind the time stands 3",
    "a{b=\"1\" 1 1": "a comma or closing brace is wanted before 1 1",
    "a{b=1} 1 1": "a quoted value of the label b is wanted",
    "a{b} 1 1": "= is wanted behind the label b",
    "a{b=\"1\",b=\"2\"} 1 1": "the label b stands twice",
    "a{b=\"\\x\"} 1 1": "no escape",
    "a{1=\"\"} 1 1": "a label is wanted",
    "{b=\"1\"} 1 1": "one name of a metric is wanted",
    "a{\"b\"} 1 1": "one name of a metric is wanted",
    "1a 1 1": "a name of a metric is wanted",
    "a": "nothing is no number",
    "a{b=\"" + "x" * 249 + "\"} 1 1": "the name has 256 bytes, and 255 is the most",
}


def samples(text, *more):
    """What a text says: of each sample the name, second and word."""
    return [(sample.name, sample.second, sample.word) for sample in exposition.read_samples(Text("text", text), *more)]


class Names(unittest.TestCase):
    def test_spellings(self):
        for (metric, labels), name in NAMES.items():
            self.assertEqual(exposition.name_of(metric, list(labels)), name)
            kept = sorted((label, value) for label, value in labels if value)
            self.assertEqual(exposition.read_name(name), (metric, kept))
            self.assertTrue(is_name(name))

    def test_a_name_is_its_own_key_and_no_two_are_one(self):
        parts = ["a", "A", "^a", "^A", "%41", "a b", "ß", "SS", "ss", "=", "\"", "}", "{", ",", "é", "É", "\\"]
        named = {}
        for metric, value in itertools.product(parts, ["", *parts]):
            name = exposition.name_of(metric, [("l", value)])
            self.assertEqual(name.casefold(), name)
            self.assertNotIn(name, named, (metric, value))
            named[name] = metric, value

    def test_other_names_stand_for_nothing(self):
        for name in NO_NAMES:
            with self.assertRaises(ValueError, msg=name):
                exposition.read_name(name)


class Samples(unittest.TestCase):
    def test_openmetrics_has_seconds(self):
        self.assertEqual(samples('a{b="1",} 12 10.9 # {t="x y"} 3 4\n# EOF\n'), [('a{b="1"}', 10, "4028000000000000")])

    def test_prometheus_has_milliseconds(self):
        self.assertEqual(samples('a\t{ b = "1" }  12\t10999\na +Inf 11000\n'), [('a{b="1"}', 10, "4028000000000000"), ("a", 11, "7ff0000000000000")])

    def test_values(self):
        words = {"NaN": "7ff8000000000000", "-Inf": "fff0000000000000", "-0": "8000000000000000", ".5": "3fe0000000000000", "9007199254740993": "4340000000000000"}
        for text, word in words.items():
            self.assertEqual(samples(f"a {text} 1000\n"), [("a", 1, word)])
            again = exposition.read_value(exposition.written_value(word))
            self.assertEqual(again, word)

    def test_a_name_in_quotes(self):
        self.assertEqual(samples('{"web01.cpu","x.y"="1"} 1 1\n# EOF\n'), [('web01.cpu{x.y="1"}', 1, "3ff0000000000000")])

    def test_a_time_for_all_that_have_none(self):
        self.assertEqual(samples("a 1\nb 1 3000\n", None, 7), [("a", 7, "3ff0000000000000"), ("b", 3, "3ff0000000000000")])

    def test_what_is_wrong_is_told_with_its_line(self):
        for line, what in BAD_SAMPLES.items():
            with self.assertRaises(Wrong, msg=line) as told:
                samples(f"# a comment\n{line}\n# EOF\n")
            self.assertTrue(str(told.exception).startswith("text:2: "), told.exception)
            self.assertIn(what, str(told.exception))

    def test_a_cut_scrape_is_told(self):
        with self.assertRaisesRegex(Wrong, "^text:3: no # EOF ends the last scrape"):
            samples("a 1 1\n# EOF\na 1 2\n")

    def test_scrapes_are_counted(self):
        def scrapes(text):
            return [sample.scrape for sample in exposition.read_samples(Text("text", text))]
        self.assertEqual(scrapes("a 1 1\nb 1 1\n# EOF\na 1 2\n# EOF\n"), [0, 0, 1])
        self.assertEqual(scrapes("# TYPE a gauge\na 1 1\n# TYPE b gauge\nb 1 1\n# TYPE a gauge\na 1 2\n"), [0, 0, 1])


class Lines(unittest.TestCase):
    def made(self, *rows, lanes=1, each=0):
        given = [exposition.Sample(f"t:{number}", scrape, name, second, "0" * 16, True) for number, (scrape, name, second) in enumerate(rows, 1)]
        return workload_lines(given, lanes, each)

    def test_late_samples_are_left_out(self):
        made = self.made((0, "a", 5), (0, "a", 5), (1, "a", 4), (1, "b", 4), (2, "a", 6))
        self.assertEqual([line.split()[2:4] for line in made.lines], [["a", "5"], ["b", "4"], ["a", "6"]])
        self.assertEqual([(sample.place, last) for sample, last in made.late], [("t:2", 5), ("t:3", 5)])

    def test_lanes_are_dealt_by_series(self):
        made = self.made((0, "a", 1), (0, "b", 1), (0, "c", 1), (1, "b", 2), (1, "a", 2), lanes=2)
        self.assertEqual([line.split()[0] for line in made.lines], ["0", "1", "0", "1", "0"])

    def test_joins_stand_between_scrapes(self):
        rows = [(scrape, "a", scrape) for scrape in range(5)]
        self.assertEqual(["join\n" == line for line in self.made(*rows, each=2).lines], [False, False, True, False, False, True, False])
        self.assertNotIn("join\n", self.made(*rows).lines)

    def test_parts_are_runs_of_their_own(self):
        lines = ["0 del a\n", "join\n", "0 del b\n", "join\n", "0 del c\n"]
        self.assertEqual(parts_of(lines, 10), ["0 del a\n", "0 del b\n", "0 del c\n"])
        self.assertEqual(parts_of(lines, 20), ["0 del a\n", "0 del b\n", "0 del c\n"])
        self.assertEqual(parts_of(lines, 29), ["0 del a\njoin\n0 del b\n", "0 del c\n"])
        self.assertEqual(parts_of(lines, 99), ["".join(lines)])
        self.assertEqual(parts_of(["0 del a\n", *lines], 16), ["0 del a\n0 del a\n", "0 del b\n", "0 del c\n"])
        self.assertEqual(parts_of([], 99), [""])


class Command(InFolder):
    def test_a_late_sample_is_told(self):
        status, text, errors = tool("openmetrics", "to-workload", given="a 1 2\na 2 1\n# EOF\n")
        self.assertEqual((status, text), (0, "0 put a 2 3ff0000000000000\n"))
        self.assertEqual(errors, "openmetrics: standard input:2: late: a at 1, and its last sample is at 2; left out\nopenmetrics: 1 series, 1 points, 1 late\n")

    def test_wrong_words_end_with_2(self):
        for words in ([], ["to"], ["to-workload", "--lanes", "9"], ["to-workload", "--split"], ["to-workload", "--join", "-1"], ["from-dump", "a", "b"]):
            self.assertEqual(tool("openmetrics", *words)[0], 2, words)

    def test_wrong_input_ends_with_1_and_leaves_the_output_alone(self):
        self.file("out", "as before\n")
        bad = self.file("bad", "a 1 1\na 1 x\n# EOF\n")
        status, text, errors = tool("openmetrics", "to-workload", bad, "--output", self.path("out"))
        self.assertEqual((status, text, errors), (1, "", f"openmetrics: {bad}:2: x is no time\n"))
        self.assertEqual(self.text("out"), "as before\n")
        self.assertEqual(sorted(os.listdir(self.folder)), ["bad", "out"])
        self.assertEqual(tool("openmetrics", "from-dump", bad)[0], 1)
        self.assertEqual(tool("openmetrics", "from-dump", self.path("none"))[2], f"openmetrics: {self.path('none')}: no such file or directory\n")

    def test_a_name_with_upper_case_letters_is_refused(self):
        status, text, errors = tool("openmetrics", "from-dump", given="0 CPU floor 0 points 0\n")
        self.assertEqual((status, text), (1, ""))
        self.assertIn("CPU is no name that to-workload gives", errors)

    def test_a_metric_s_samples_stand_together(self):
        word = "3ff0000000000000"
        dump = f'0 a floor 0 points 1 5:{word}\n0 a_b floor 0 points 1 5:{word}\n0 a{{x="^b"}} floor 0 points 2 5:{word} 6:fff0000000000000\n0 web01.cpu floor 0 points 1 7:{word}\n'
        wanted = 'a 1.0 5\na{x="B"} 1.0 5\na{x="B"} -Inf 6\na_b 1.0 5\n{"web01.cpu"} 1.0 7\n# EOF\n'
        self.assertEqual(tool("openmetrics", "from-dump", given=dump), (0, wanted, ""))

    def test_more_than_an_input_is_split(self):
        self.assertEqual(openmetrics.INPUT_BYTES, 16_777_216)
        few = self.file("few", "a 1 1\nb 1 1\nc 1 1\n# EOF\n")
        words = ["to-workload", few, "--output", self.path("w")]
        with mock.patch.object(openmetrics, "INPUT_BYTES", 60), contextlib.redirect_stderr(io.StringIO()) as errors:
            self.assertEqual((openmetrics.main(words), os.listdir(self.folder)), (1, ["few"]))
            self.assertIn("would have more than 60 bytes", errors.getvalue())
            self.assertEqual(openmetrics.main([*words, "--split"]), 0)
        self.assertEqual(sorted(os.listdir(self.folder)), ["few", "w.000", "w.001"])
        self.assertEqual(self.text("w.001"), "0 put c 1 3ff0000000000000\n")

    def test_more_series_than_slots_are_told(self):
        for count, what in ((1024, ""), (1025, "run --shards 1 --slots 1025"), (16385, "at most 16384 slots, so the puts of 1 series")):
            with contextlib.redirect_stderr(io.StringIO()) as errors:
                openmetrics.tell_made(openmetrics.Made([], [], 0, count))
            self.assertIn(what, errors.getvalue())
            self.assertEqual("slots" in errors.getvalue(), what != "")

    def test_no_part_of_an_output_is_left(self):
        good = self.file("good", "a 1 1\n# EOF\n")
        os.mkdir(self.path("w.001"))
        with mock.patch.object(openmetrics, "INPUT_BYTES", 60), contextlib.redirect_stderr(io.StringIO()) as errors:
            many = self.file("many", "a 1 1\nb 1 1\nc 1 1\n# EOF\n")
            self.assertEqual(openmetrics.main(["to-workload", many, "--split", "--output", self.path("w")]), 1)
        self.assertEqual(errors.getvalue(), f"openmetrics: {self.path('w.001')}: is no regular file\n")
        self.assertEqual(sorted(os.listdir(self.folder)), ["good", "many", "w.001"])
        self.assertEqual(tool("openmetrics", "to-workload", good, "--output", self.path("none/w"))[0], 1)
        self.assertEqual(tool("openmetrics", "to-workload", good, "--output", "/dev/null")[0], 1)


class RoundTrip(InFolder):
    """A file of metrics goes into a store, and comes out of its dump and of its answers, equal but for order and spelling."""

    def there_and_back(self, command, *options):
        metrics = example("machine.metrics")
        status, workload, errors = tool("openmetrics", "to-workload", MACHINE, *options)
        self.assertEqual(status, 0, errors)
        self.assertEqual(program(command, "run", given=workload, folder=self.folder)[0], 0)
        dump = program(command, "dump", folder=self.folder)[1]
        status, back, errors = tool("openmetrics", "from-dump", given=dump)
        self.assertEqual((status, errors), (0, ""))
        self.assertEqual(sorted(samples(back)), sorted(samples(metrics)))
        return workload, dump

    def test_through_a_plain_map(self):
        self.there_and_back(FAKE, "--join", "2")

    def test_the_example_is_a_machine_s(self):
        names = {name for name, _, _ in samples(example("machine.metrics"))}
        self.assertGreaterEqual(len(names), 100)
        self.assertLess(os.path.getsize(MACHINE), 150_000)
        self.assertTrue(any("^" in name for name in names))

    def test_through_printed_answers(self):
        metrics = samples(example("machine.metrics"))
        gets = "join\n" + "".join(f"0 get {name} 0 4294965599\n" for name in sorted({name for name, _, _ in metrics}))
        workload = self.file("w", tool("openmetrics", "to-workload", MACHINE)[1] + gets)
        answers = program(FAKE, "run", given=self.text("w"), folder=self.folder)[1]
        status, back, errors = tool("openmetrics", "from-dump", "--workload", workload, given=answers)
        self.assertEqual((status, errors), (0, ""))
        self.assertEqual(sorted(samples(back)), sorted(metrics))

    @NEEDS_PROGRAM
    def test_through_the_program(self):
        self.there_and_back(GORILLA, "--lanes", "4", "--join", "3")


class Scrape(unittest.TestCase):
    @unittest.skipUnless(os.path.exists("/proc/meminfo"), "this machine has no /proc/meminfo")
    def test_this_machine(self):
        status, text, errors = call([os.path.join(EXAMPLES, "scrape"), "2", "1"])
        self.assertEqual((status, errors), (0, ""))
        found = list(exposition.read_samples(Text("scrape", text)))
        made = workload_lines(found, 1, 0)
        self.assertEqual(({sample.scrape for sample in found}, made.late), ({0, 1}, []))
        for line in made.lines:
            self.assertEqual(read_line(line[:-1]).kind, "put")

    def test_wrong_words(self):
        for words in (["x"], ["0"], ["1", "2", "3"], ["-1"]):
            self.assertEqual(call([os.path.join(EXAMPLES, "scrape"), *words])[0], 2, words)
