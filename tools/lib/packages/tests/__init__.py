"""Tests of what is said of the proof of a program that is installed."""
