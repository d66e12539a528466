"""Tests of how the library and the page are made: tools/selftest runs them."""
