"""The pages that tools/repo makes from the repository itself."""
