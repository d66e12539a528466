"""`opcmds serve` driven from outside: its clients, and what the file must hold after each."""
