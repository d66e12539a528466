"""Tests of the repository's own texts: tools/selftest runs them."""
