"""The page of `opcmds sheet`: how it is read, and what `who` says of each of its rows."""
