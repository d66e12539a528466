"""Inputs that are turned until they hardly read, and what has to hold of the program whatever they are."""
