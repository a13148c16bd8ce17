"""What runs of `fluidd workload` take."""
import tempfile
from pathlib import Path

import measure
from workload_acts import workload

NUMBER = 7
SIZES = [(8, 5_000), (8, 10_000), (8, 20_000), (8, 40_000), (32, 20_000), (100, 20_000), (100, 100_000)]


class Figure:
    """Runs with so many clients and ops: how many messages the clients collect, the least processor seconds, and the most bytes of
    memory."""

    def __init__(self, clients, ops, runs):
        self.clients, self.ops = clients, ops
        self.collected = collected(clients, ops)
        self.seconds, self.memory = timed(program(clients, ops), runs)

    @property
    def nanoseconds(self):
        """For each collected message."""
        return self.seconds / self.collected * 1e9


def program(clients, ops):
    return measure.built("fluidd", ["workload", NUMBER, "--clients", clients, "--ops", ops])


def collected(clients, ops):
    """How many messages the clients collect. Each client's collections are counted from the acts; what stands in the order then is
    one message for each join, op, summarize and answer, and the container's join and two attaches."""
    messages, seen, count = 0, {}, 0
    for act in workload(NUMBER, clients, ops):
        word, *words = act.split()
        if word == "begin":
            messages += 3
        elif word in ("join", "set", "delete", "increment"):
            messages += 1
            if word == "join":
                seen[words[0]] = messages - 1
        elif word == "round":
            messages += 2
        elif word == "collect":
            count += messages - seen[words[0]]
            seen[words[0]] = messages
    return count


def timed(one, runs):
    with tempfile.TemporaryDirectory() as folder:
        nothing = Path(folder) / "nothing"
        nothing.write_bytes(b"")
        taken = [measure.run(one, nothing, Path(folder) / "written") for _ in range(runs)]
    return min(run.seconds for run in taken), max(run.memory for run in taken)


def figures(runs):
    return [Figure(clients, ops, runs) for clients, ops in SIZES]
