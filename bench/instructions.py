"""Writes 'JOB WHO INSTRUCTIONS', for one unit of each job, from the dumps of the driver."""
import sys

import callgrind

before = {}
for name, instructions in callgrind.dumps(sys.argv[1]):
    job, who, times, units = name.split()
    if times == "0":
        before[job, who] = instructions
    else:
        print(job, who, round((instructions - before[job, who]) / float(units)))
