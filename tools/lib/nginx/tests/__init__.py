"""Tests of what the configuration of nginx becomes in a test, and of how its answers are read."""
