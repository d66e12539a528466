"""Tests of what counts as a failure of the service: tools/selftest runs them."""
