"""The manual page and the completions say what the program and the tools take."""

import os
import re
import shutil
import subprocess
import unittest

from monitoring import lines
from tests.common import ROOT, TOOLS, tool

PAGE = os.path.join(ROOT, "docs", "gorilla.1")
COMPLETIONS = os.path.join(TOOLS, "completions")
COMMANDS = {"openmetrics to-workload": ["openmetrics", "to-workload"], "openmetrics from-dump": ["openmetrics", "from-dump"], "plot": ["plot"], "crash": ["crash"]}


def read(*path):
    with open(os.path.join(*path), encoding="utf-8") as file:
        return file.read()


def options_of(*words):
    """The options that a tool tells of in its help."""
    return set(re.findall(r"^  (?:-h, )?(--[a-z]+)", tool(*words, "--help")[1], re.MULTILINE))


def offered_by_bash(*words):
    """What bash offers for the last of these words."""
    script = f"source {COMPLETIONS}/gorilla.bash; COMP_WORDS=(\"$@\"); COMP_CWORD=$(($# - 1)); f=$(complete -p \"$1\"); f=${{f#*-F }}; ${{f%% *}}; printf '%s\\n' \"${{COMPREPLY[@]}}\""
    done = subprocess.run(["bash", "-c", script, "bash", *words], capture_output=True, text=True, cwd=ROOT, check=False)
    return done.stdout.split(), done.stderr


class ManualPage(unittest.TestCase):
    def test_nothing_is_found_by_man(self):
        if not shutil.which("man"):
            self.skipTest("this machine has no man")
        done = subprocess.run(["man", "--warnings", "-E", "UTF-8", "-l", "-Tutf8", "-Z", PAGE], capture_output=True, text=True, check=False)
        self.assertEqual((done.returncode, done.stderr), (0, ""))

    def test_nothing_is_found_by_mandoc(self):
        if not shutil.which("mandoc"):
            self.skipTest("this machine has no mandoc")
        done = subprocess.run(["mandoc", "-T", "lint", PAGE], capture_output=True, text=True, check=False)
        self.assertEqual((done.returncode, done.stdout), (0, ""))

    def test_each_answer_status_and_limit_is_told(self):
        page = read(PAGE).replace("\\-", "-")
        words = set(re.findall(r"[A-Za-z0-9-]+", re.sub(r"\\f[A-Z]|\\~|\\", " ", page)))
        kinds = {kind for some in lines.ANSWERS.values() for kind in some} - {"refused"} | {"done", "stop"} | lines.REASONS
        for wanted in (kinds, set(lines.ANSWERS) | {"join", "run", "dump", "--shards", "--slots"}):
            self.assertEqual(wanted - words, set())
        told = set(re.findall(r"^\| (\d) \| ", read(ROOT, "docs", "WORKLOAD.md"), re.MULTILINE))
        self.assertEqual(told, set(re.findall(r"^\.B (\d)$", page, re.MULTILINE)))
        for limit in (lines.INPUT_BYTES, lines.NAME_BYTES, lines.LAST_SECOND, lines.MOST_SLOTS, lines.SLOTS, lines.LANES):
            self.assertIn(str(limit), words)


class Completions(unittest.TestCase):
    def test_bash_offers_each_option(self):
        for words in COMMANDS.values():
            name = os.path.join("tools", words[0])
            offered, errors = offered_by_bash(name, *words[1:], "--")
            self.assertEqual((set(offered), errors), (options_of(*words), ""), words)

    def test_bash_offers_words_of_the_program(self):
        wanted = {
            ("gorilla", ""): {"run", "dump"},
            ("./gorilla", "d"): {"dump"},
            ("gorilla", "run", ""): {"--shards", "--slots"},
            ("gorilla", "run", "--shards", "1", "-"): {"--slots"},
            ("gorilla", "run", "--shards", ""): {"1"},
            ("gorilla", "dump", ""): {"--shards"},
            ("openmetrics", "to-workload", "--format", "o"): {"openmetrics"},
            ("openmetrics", "t"): {"to-workload"},
        }
        for words, offered in wanted.items():
            self.assertEqual((set(offered_by_bash(*words)[0]), offered_by_bash(*words)[1]), (offered, ""), words)

    def test_zsh_and_fish_name_each_option(self):
        zsh = re.split(r"^_gorilla_(\w+)\(\)", read(COMPLETIONS, "_gorilla"), flags=re.MULTILINE)
        functions = {name: set(re.findall(r"(--[a-z]+)\[", text)) for name, text in zip(zsh[1::2], zsh[2::2])}
        fish = {}
        for name, option in re.findall(r"^complete -c (\w+) .*-l (\w+)", read(COMPLETIONS, "gorilla.fish"), re.MULTILINE):
            fish.setdefault(name, set()).add("--" + option)
        wanted = {"gorilla": {"--shards", "--slots"}}
        for words in COMMANDS.values():
            wanted[words[0]] = wanted.get(words[0], set()) | options_of(*words)
        self.assertEqual(fish, wanted)
        self.assertEqual({"gorilla": functions.pop("program"), **functions}, wanted)

    def test_zsh_and_fish_read_their_files(self):
        for shell, name in (("zsh", "_gorilla"), ("fish", "gorilla.fish")):
            with self.subTest(shell):
                if not shutil.which(shell):
                    self.skipTest(f"this machine has no {shell}")
                done = subprocess.run([shell, "-n", os.path.join(COMPLETIONS, name)], capture_output=True, text=True, check=False)
                self.assertEqual((done.returncode, done.stderr), (0, ""))

    def test_fish_offers_words(self):
        if not shutil.which("fish"):
            self.skipTest("this machine has no fish")
        script = f"source {COMPLETIONS}/gorilla.fish; complete -C 'gorilla '; complete -C 'gorilla run --sl'; complete -C 'openmetrics from-dump --w'"
        done = subprocess.run(["fish", "--no-config", "-c", script], capture_output=True, text=True, check=False)
        self.assertEqual([line.split("\t")[0] for line in done.stdout.splitlines()], ["dump", "run", "--slots", "--workload"], done.stderr)


