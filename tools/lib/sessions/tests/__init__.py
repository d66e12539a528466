"""Tests of which blocks of a page are sessions, and of how they are run."""
