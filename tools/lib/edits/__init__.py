"""The modules of tools/edits: must-fail edits, the sources of crates, and the checks that try them."""
