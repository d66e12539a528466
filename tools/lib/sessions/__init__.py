"""The sessions that the documents show, run as they stand there."""
