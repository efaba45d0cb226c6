"""Reads the dumps of a callgrind file: the name that the driver gave each, and its instructions."""


def dumps(path):
    name = None
    with open(path, encoding="utf-8", errors="replace") as lines:
        for line in lines:
            if line.startswith("desc: Trigger: Client Request: "):
                name = line.split(": ", 3)[3].strip()
            elif line.startswith("totals: ") and name is not None:
                yield name, int(line.split()[1])
                name = None
