"""Tests of tools/unproved: tools/selftest runs them."""
