"""What asks `opcmds decide`, and what is wanted of it."""
