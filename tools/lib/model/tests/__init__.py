"""Tests of what the plain model answers: tools/selftest runs them."""
