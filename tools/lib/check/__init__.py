"""What changed since a commit, and the steps of tools/check over it."""
