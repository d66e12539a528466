"""The program refused or stopped at each write: the works that are tried, and what their files may then hold."""
