"""Tests of the tools. Those that need the program take its command from GORILLA, and are skipped where that is not set."""
