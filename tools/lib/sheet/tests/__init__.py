"""Tests of how a page is read: tools/selftest runs them."""
