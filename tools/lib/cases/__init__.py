"""Tables of cases, asked of the program from outside."""
