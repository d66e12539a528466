"""Tests of which calls are refused, and of what counts as wrong afterwards: tools/selftest runs them."""
