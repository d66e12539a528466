"""What the benches share: runs that are timed, and C programs to compare with."""
