"""Tests of how must-fail edits are read, tried and judged: tools/selftest runs them."""
