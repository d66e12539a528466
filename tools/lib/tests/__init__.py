"""Tests of what the tools share: tools/selftest runs them."""
