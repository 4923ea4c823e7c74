"""Which puzzles of a folder have more than one answer, and how often the machine had to be asked twice.

    PYTHONPATH=bindings/python python3 bindings/python/example.py puzzles/*.txt
"""

import sys

import flamecurl


def judge(name):
    with open(name, "rb") as file:
        text = file.read()
    try:
        puzzle = flamecurl.read(text)
    except flamecurl.Refused as refused:
        return f"refused, {refused}"
    counts = []
    for question in puzzle.questions:
        found = flamecurl.outcomes(puzzle.map, puzzle.cr3s, puzzle.words, puzzle.events, question)
        counts.append(str(len(found)))
    machine = flamecurl.Machine(puzzle.map, puzzle.cr3s, puzzle.words)
    again = sum(machine.put(*event).kind == "again" for event in puzzle.events)
    return f"outcomes {' '.join(counts)}; again {again}"


for name in sys.argv[1:]:
    print(f"{name}: {judge(name)}")
