"""The modules of the tools. Those of one tool lie in a folder of its name; what several tools use lies here."""
import sys

# no tool leaves files in the repository
sys.dont_write_bytecode = True
