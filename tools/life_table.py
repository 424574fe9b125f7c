"""Prints the 512 entries of Life as a table rule, 32 to a line; entry N is what it gives for N."""

import model

PER_LINE = 32

entries = [model.LIFE(number) for number in range(model.RULE_SIZE)]
for first in range(0, model.RULE_SIZE, PER_LINE):
    print(", ".join(str(entry) for entry in entries[first : first + PER_LINE]))
