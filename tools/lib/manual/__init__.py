"""The manual page and the completions of the shells, beside the program's own help."""
