"""Tests of how tables of cases are read and judged: tools/selftest runs them."""
