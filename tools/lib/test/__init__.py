"""The steps of the full and of the quick test."""
