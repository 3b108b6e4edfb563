"""The tool that kills the program, and what it checks."""

import os
import random
import unittest

from monitoring import crash
from monitoring.lines import read_line
from monitoring.plain_map import PlainMap, Run
from tests.common import FAKE, GORILLA, NEEDS_PROGRAM, InFolder, tool

WORKLOAD = ["0 put a 1 0000000000000001", "0 put b 1 0000000000000002", "0 flush 0", "0 put a 1 0000000000000003", "0 del b", "0 put a 2 0000000000000004"]
PRINTED = ["0 0:0 stored", "0 0:1 stored", "0 0:2 take 2", "0 0:3 done 2", "0 0:4 late 1", "0 0:5 gone", "0 0:6 stored"]
ONE, TWO, FOUR = (1, "0000000000000001"), (1, "0000000000000002"), (2, "0000000000000004")

# What the map is after each number of changes.
AFTER = [[], [("a", [ONE])], [("a", [ONE]), ("b", [TWO])], [("a", [ONE])], [("a", [ONE, FOUR])]]


def text(count):
    """The first so many printed lines."""
    return "".join(f"{line}\n" for line in PRINTED[:count])


class Checks(unittest.TestCase):
    def setUp(self):
        self.run_ = Run(PlainMap())
        for line in WORKLOAD:
            self.run_.take_line(read_line(line))

    def judged(self, printed, series, by_itself=False):
        return crash.judged(self.run_, printed, PlainMap(series), 0, by_itself)

    def test_the_front_that_was_printed_is_counted(self):
        wanted = {0: (0, 0), 1: (1, 0), 3: (2, 0), 4: (2, 2), 6: (3, 2), 7: (4, 2)}
        for count, counts in wanted.items():
            self.assertEqual(crash.counts_of(self.run_, text(count)), counts)
            self.assertEqual(crash.counts_of(self.run_, text(count) + "".join(PRINTED[count:count + 1])[:4]), counts)

    def test_a_done_that_is_cut_counts_nothing(self):
        self.assertEqual(crash.counts_of(self.run_, text(3) + PRINTED[3]), (2, 0))

    def test_other_answers_are_refused(self):
        cases = {
            text(4) + "0 0:4 stored\n": "line 5 of what was printed is 0 0:4 stored, and the plain map answers 0 0:4 late 1",
            text(7) + "0 0:7 stored\n": "line 8 of what was printed is 0 0:7 stored, and the plain map answers nothing",
            text(3) + "0 0:3 done 1\n": "line 4",
            "\n": "line 1 of what was printed is missing",
            "0 0:1 stor": "line 1",
        }
        for printed, what in cases.items():
            with self.assertRaisesRegex(crash.Failed, what):
                crash.counts_of(self.run_, printed)

    def test_each_prefix_is_found(self):
        for number in (0, 2, 4):
            self.assertEqual(self.judged("", AFTER[number]).prefix, number)
        self.assertEqual(self.judged("", AFTER[1]).prefix, 3)

    def test_what_is_no_prefix_is_refused(self):
        for series in ([("b", [TWO])], [("a", [FOUR])], [("a", [ONE]), ("b", [TWO]), ("c", [ONE])], [("a", [ONE, FOUR]), ("b", [TWO])], [("A", [ONE])]):
            with self.assertRaisesRegex(crash.Failed, "no prefix of the 4 changes"):
                self.judged("", series)

    def test_what_a_done_counted_has_to_be_there(self):
        with self.assertRaisesRegex(crash.Failed, "after 0 changes, and a done counted 2"):
            self.judged(text(4), AFTER[0])
        self.assertEqual(self.judged(text(3), AFTER[0]).lost, 2)
        self.assertEqual(self.judged(text(7), AFTER[2]).lost, 2)

    def test_more_than_was_answered_is_no_loss(self):
        self.assertEqual(self.judged(text(1), AFTER[4])[1:5], (1, 0, 4, 0))

    def test_a_run_that_was_left_alone_has_all(self):
        self.assertEqual(self.judged(text(7), AFTER[4], True).prefix, 4)
        with self.assertRaisesRegex(crash.Failed, "ended by itself"):
            self.judged(text(7), AFTER[3], True)


class Plans(unittest.TestCase):
    def test_a_seed_repeats_a_plan(self):
        first, again, other = (crash.plan_of(random.Random(seed), 20, PlainMap()).workload for seed in (1, 1, 2))
        self.assertEqual(first, again)
        self.assertNotEqual(first, other)

    def test_a_plan_has_all_kinds_of_lines_and_answers(self):
        plan = crash.plan_of(random.Random(1), 200, PlainMap())
        self.assertEqual({line.split()[1] for line in plan.workload.splitlines() if line != "join"}, {"put", "get", "del", "flush"})
        self.assertEqual({line.split()[2] for line, _ in plan.run.printed}, {"stored", "late", "points", "absent", "gone", "take", "done"})
        self.assertEqual((len(plan.rounds), plan.rounds[0], plan.rounds[-1]), (201, 0, len(plan.run.printed)))


class WithAFake(InFolder):
    """A small program in the place of the real one, which errs where it is told to."""

    def crash(self, *words, fake="", command=FAKE):
        return tool("crash", "--program", command, "--rounds", "20", "--folder", self.path("here"), *words, FAKE=fake)

    def test_kills_are_told_and_repeated(self):
        status, told, errors = self.crash("--kills", "3", "--seed", "7")
        self.assertEqual((status, errors), (0, ""))
        alone = told.count("ended by itself")
        self.assertIn(f"{3 - alone} kills and {alone} runs", told)
        self.assertIn("the machine did not lose power", told)
        rounds = [line.split()[1] for line in told.splitlines() if line[:10].strip().isdigit()]
        self.assertEqual(len(rounds), 3)
        status, again, _ = tool("crash", "--program", FAKE, "--rounds", "20", "--kills", "1", "--seed", "7")
        self.assertEqual([line.split()[1] for line in again.splitlines() if line[:10].strip().isdigit()], rounds[:1])

    def test_a_program_that_errs_is_found_out(self):
        wanted = {
            "forgets": "a done counted",
            "skips": "no prefix",
            "guesses": "of what was printed is",
            "refuses": "a run ended by itself with 7: gorilla: shard 0: the device failed",
        }
        for fake, what in wanted.items():
            with self.subTest(fake):
                folder = self.path(fake)
                status, _, errors = tool("crash", "--program", FAKE, "--rounds", "40", "--kills", "9", "--folder", folder, FAKE=fake)
                self.assertEqual(status, 1, errors)
                self.assertIn(what, errors)
                self.assertTrue({"workload", "printed"} <= set(os.listdir(folder)))

    def test_a_store_that_is_there_is_left_alone(self):
        os.makedirs(self.path("here/store"))
        status, told, errors = self.crash()
        self.assertEqual((status, told, errors), (1, "", f"crash: {self.path('here')}: has a store already, which this tool would change\n"))

    def test_a_program_that_is_not_there(self):
        status, told, errors = self.crash(command="/nowhere/gorilla")
        self.assertEqual((status, told, errors), (1, "", "crash: /nowhere/gorilla: no such file or directory\n"))
        self.assertEqual(self.crash(command="false")[::2], (1, "crash: false: a dump ended with 1: \n"))

    def test_wrong_words(self):
        for words in (["--kills", "0"], ["--seed", "x"], ["--rounds", "0"], ["more"]):
            self.assertEqual(self.crash(*words)[0], 2, words)


@NEEDS_PROGRAM
class WithTheProgram(InFolder):
    def test_ten_kills(self):
        status, told, errors = tool("crash", "--program", GORILLA, "--kills", "10", "--folder", self.path("here"))
        self.assertEqual((status, errors), (0, ""), told)
        self.assertEqual(len([line for line in told.splitlines() if line[:10].strip().isdigit()]), 10)
