"""Tests of how tables of runs are read and judged: tools/selftest runs them."""
