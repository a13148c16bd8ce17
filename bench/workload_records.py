#!/usr/bin/env python3
"""The raw records of a workload, one a line, by its acts and the rules in words and not by the program.

    workload_records.py NUMBER CLIENTS OPS

`fluidd sequence` reads them, and so does workload_summary.py. What a client submits depends on what it has collected and on the
verdicts on what it has submitted, so each record is entered into workload_summary.py's document on the way.
"""
import sys

from workload_acts import workload
from workload_summary import Document, app_id, printed, replay

SCOPES = ["doc:read", "doc:write", "summary:write"]


class Writer:
    """A client: its id, its last number, the last number that it collected, and its last submission that was taken."""

    def __init__(self, id_):
        self.id, self.number, self.collected, self.last = id_, 0, 0, None


class Run:
    """The records so far, and the document behind them."""

    def __init__(self):
        self.document, self.records, self.channels, self.channels_at = Document(), [], {}, 0

    def enter(self, record):
        self.records.append(record)
        return self.document.enter(record)

    def join(self):
        writer = Writer(f"c{len(self.records)}")
        self.enter({"raw": "join", "clientId": writer.id, "detail": None, "moment": 0, "scopes": SCOPES})
        return writer

    def offer(self, writer, operation):
        return self.enter({"raw": "submit", "clientId": writer.id, "moment": 0, "operation": operation})

    def submit(self, writer, kind, contents, more=1):
        operation = {"clientSequenceNumber": writer.number + more, "contents": contents, "referenceSequenceNumber": writer.collected, "type": kind}
        if self.offer(writer, operation) in ("sequenced", "absorbed"):
            writer.number, writer.last = writer.number + more, operation

    def collect(self, writer):
        writer.collected = len(self.document.messages)

    def app(self, number):
        """The id of the app tree behind so many messages, which never get fewer."""
        replay(self.document.messages[self.channels_at:number], self.channels)
        self.channels_at = number
        return app_id(self.channels)

    def summarize(self, writer):
        """It proposes what it shows, and the scribe answers."""
        head = self.document.acknowledged[-1][0] if self.document.acknowledged else ""
        self.submit(writer, "summarize", {"handle": self.app(writer.collected), "head": head,
                                          "message": f"summary at {writer.collected}", "parents": [head] if head else []})
        if self.document.summaries:
            self.enter({"raw": "report", "found": True, "moment": 0, "summary": self.document.summaries[0]})


def edit(act, words):
    if act == "set":
        return {"address": "m", "contents": {"type": "set", "key": f"k{words[1]}", "value": {"type": "Plain", "value": words[2]}}}
    if act == "delete":
        return {"address": "m", "contents": {"type": "delete", "key": f"k{words[1]}"}}
    return {"address": "n", "contents": {"type": "increment", "incrementAmount": words[1]}}


def records(acts):
    """The raw records of these acts, written as workload_acts.py prints them."""
    run, writers, first = Run(), [], None
    for line in acts:
        act, *words = line.split()
        words = [int(word) for word in words]
        if act == "begin":
            first = run.join()
            run.collect(first)  # it is loaded behind its own join
            for address, kind in (("m", "map"), ("n", "counter")):
                run.submit(first, "op", {"address": address, "type": "attach", "kind": kind})
            run.collect(first)
        elif act == "join":
            writers.append(run.join())
        elif act == "collect":
            run.collect(writers[words[0]])
        elif act == "noop":
            run.submit(writers[words[0]], "noop", None)
        elif act == "again":
            if writers[words[0]].last:
                run.offer(writers[words[0]], writers[words[0]].last)
        elif act == "gap":
            run.submit(writers[words[0]], "op", None, more=2)
        elif act == "round":
            run.collect(first)
            run.summarize(first)
        elif act == "finish":
            run.join()
        else:
            run.submit(writers[words[0]], "op", edit(act, words))
    return run.records


if __name__ == "__main__":
    for record in records(workload(*(int(word) for word in sys.argv[1:4]))):
        print(printed(record))
