"""The exponent of the growth of each call's instructions: 1 is linear. Fails where that between the two greatest sizes
is above 1.1: memcpy takes another way at some thousands of bytes, so that smaller copies cost less a byte."""
import math
import sys

import callgrind

cost, inputs = {}, {}
for name, instructions in callgrind.dumps(sys.argv[1]):
    job, size, call, text = name.split(" ", 3)
    cost[job, int(size), call] = instructions
    inputs[job] = text
memory = {}
with open(sys.argv[2], encoding="utf-8") as lines:
    for line in lines:
        job, size, call, requests, size_asked = line.split()
        memory[job, int(size), call] = int(requests), int(size_asked)
above = 0
print(f"{'call':26} {'size':>7} {'instructions':>14} {'each':>10} {'requests':>9} {'bytes':>11} {'exponent':>8}")
for job in inputs:
    last, sizes = None, sorted(size for name, size, call in cost if name == job and call == "1")
    for size in sizes:
        spent = cost[job, size, "1"] - cost[job, size, "0"]
        one, none = memory[job, size, "1"], memory[job, size, "0"]
        exponent = ""
        if last:
            value = math.log(spent / last[1]) / math.log(size / last[0])
            exponent = f"{value:.2f}"
            if value > 1.1 and size == sizes[-1]:
                above += 1
                exponent += " ABOVE"
        print(
            f"{job:26} {size:7} {spent:14} {spent / size:10.1f} {one[0] - none[0]:9} {one[1] - none[1]:11} {exponent:>8}"
            + ("" if last else f"   {inputs[job]}")
        )
        last = size, spent
print(f"{len(inputs)} inputs, {above} exponents above 1.1")
sys.exit(1 if above else 0)
