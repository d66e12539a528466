"""Tests of what is wanted of `decide`: tools/selftest runs them."""
