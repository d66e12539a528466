"""The program in a shell: tables of runs, what no table can say, and how both are judged."""
