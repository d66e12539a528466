"""A model of the rules in plain Python, and what compares the program with it.

It is written from the rules, shares no code with the product, and prefers the plainest way of saying a rule to a fast
one. What an operator may see is here; how the product finds it is not: no heads that are searched, no cache, no
transactions."""
