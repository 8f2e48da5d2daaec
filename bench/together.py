#!/usr/bin/env python3
"""Steps the machines of a split together, and prints what they answer, as `hsdec walk` prints it.

    together.py FILE PART.. OUTPUTS < SYMBOLS

FILE is the machine that was split, which gives the order of the inputs. The others are texts of `hsdec part FILE SPLIT J`:
one for each part that has bits, and last the one of `outputs`. Signals are found by their names, so parts may read
each other.
"""
import re
import sys


class Machine:
    def __init__(self, path):
        words, self.rows = {}, []
        for fields in (line.split("#")[0].split() for line in open(path)):
            if fields and fields[0].startswith("."):
                words[fields[0]] = fields[1:]
            elif fields:
                self.rows.append(fields)
        self.width = int(words[".i"][0])
        self.inputs, self.outputs = words.get(".ilb"), words.get(".ob")
        self.state = words[".r"][0] if ".r" in words else self.rows[0][1]

    def held(self, values):
        """The rows of the state that hold the symbol of these values."""
        here = [row for row in self.rows if row[1] == self.state]
        return [row for row in here if all(c in ("-", values[name]) for c, name in zip(row[0], self.inputs))]


file, *parts, outputs = map(Machine, sys.argv[1:])
prefix = re.match("(hs_)*", parts[0].outputs[0])[0] if parts else ""
names = file.inputs or [f"{prefix}x{k}" for k in range(file.width)]
for line in sys.stdin:
    values = dict(zip(names, line.strip()))
    for part in parts:
        values.update(zip(part.outputs, next(row[3] for row in part.rows if row[1] == part.state)))
    given = [row[3] for row in outputs.held(values)]
    print("".join(next(c for c in column if c != "-") for column in zip(*given)))
    for part in parts:
        part.state = part.held(values)[0][2]
