"""Tests of what reads the help and the manual, and of the completions."""
