#!/usr/bin/env python3
"""The acts of a workload by its rule in words, to compare with what the program does.

    workload_acts.py NUMBER CLIENTS OPS [COUNT]

prints the first COUNT acts (all of them if it is left out), one a line.

The rule. The state x is a number of 64 bits and begins as NUMBER. draw(m) makes x into
x * 6364136223846793005 + 1442695040888963407 modulo 2 ** 64 and gives x // 2 ** 33 modulo m.
1. begin.
2. Each client joins, collects and submits a noop, before the next one joins.
3. For i from 1 to OPS: j is draw(CLIENTS). Where i is a multiple of 10, j submits again. Else, where i leaves 99 after
   division by 100, j leaves a gap. Else t is draw(4): for 0 and 1 j sets key draw(50) to draw(1000); for 2 it deletes key
   draw(50); for 3 it adds draw(2001) - 1000 to the counter. In each of the three cases draw(2) follows: at 0, j collects.
   Where i is a multiple of 1,000 a round follows.
4. finish.
"""
import itertools
import sys


def workload(number, clients, ops):
    x = number

    def draw(m):
        nonlocal x
        x = (x * 6364136223846793005 + 1442695040888963407) % (1 << 64)
        return (x >> 33) % m

    yield "begin"
    for j in range(clients):
        yield f"join {j}"
        yield f"collect {j}"
        yield f"noop {j}"
    for i in range(1, ops + 1):
        j = draw(clients)
        if i % 10 == 0:
            yield f"again {j}"
        elif i % 100 == 99:
            yield f"gap {j}"
        else:
            t = draw(4)
            if t in (0, 1):
                key = draw(50)
                value = draw(1000)
                yield f"set {j} {key} {value}"
            elif t == 2:
                yield f"delete {j} {draw(50)}"
            else:
                yield f"increment {j} {draw(2001) - 1000}"
        if draw(2) == 0:
            yield f"collect {j}"
        if i % 1000 == 0:
            yield "round"
    yield "finish"


if __name__ == "__main__":
    number, clients, ops = (int(word) for word in sys.argv[1:4])
    count = int(sys.argv[4]) if len(sys.argv) > 4 else None
    for act in itertools.islice(workload(number, clients, ops), count):
        print(act)
