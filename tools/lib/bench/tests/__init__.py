"""Tests of what the benches share: tools/selftest runs them."""
