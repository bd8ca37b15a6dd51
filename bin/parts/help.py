"""Prints the console's lines, for `bin/console help`."""
from forms import help_lines

print("\n".join(help_lines()))
