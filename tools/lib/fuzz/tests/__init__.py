"""Tests of how inputs are turned, read and judged: tools/selftest runs them."""
