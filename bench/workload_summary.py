#!/usr/bin/env python3
"""What a workload writes, worked out from the raw records of its run by the rules in words, and not by the program.

    workload_records.py NUMBER CLIENTS OPS | workload_summary.py

Reads raw records, one a line. The document's rules (docs/RULES.md) give each its verdict, and each sequenced one its message; the first
client that joins is the first container's, the last one the last container's. Prints the seven lines that `fluidd workload` writes.

A second hand wrote the rules down here: a list of messages, one row for each client, and a replay from the first message for each
state that is asked for.
"""
import hashlib
import json
import re
import sys


def printed(value):
    return json.dumps(value, ensure_ascii=False, sort_keys=True, separators=(",", ":"))


# ---- Git's ids


def git_id(kind, body):
    return hashlib.sha1(f"{kind} {len(body)}".encode() + b"\0" + body).hexdigest()


def blob_id(text):
    return git_id("blob", text.encode())


def tree_id(entries):
    """The id of a tree of (name, whether it is a tree, id), in byte order of names, a tree's as if a `/` stood behind it."""
    body = b""
    for name, is_tree, id_ in sorted(entries, key=lambda entry: entry[0].encode() + (b"/" if entry[1] else b"")):
        body += (b"40000 " if is_tree else b"100644 ") + name.encode() + b"\0" + bytes.fromhex(id_)
    return git_id("tree", body)


def blobs_id(texts):
    """The id of a tree of blobs with these texts, by their names."""
    return tree_id([(name, False, blob_id(text)) for name, text in texts.items()])


def app_id(channels):
    """The id of the app tree of these channels."""
    return tree_id([(address, True, blobs_id({"kind": kind, "content": printed(value) if kind == "map" else printed({"value": str(value)})}))
                    for address, (kind, value) in channels.items()])


# ---- channels


def replay(messages, channels=None):
    """The channels behind these messages, from these channels on, which are changed."""
    channels = {} if channels is None else channels
    for message in messages:
        contents = message["contents"]
        if message["type"] != "op" or not isinstance(contents, dict):
            continue
        address = contents["address"]
        if contents.get("type") == "attach":
            channels.setdefault(address, (contents["kind"], {} if contents["kind"] == "map" else 0))
            continue
        channel, edit = channels.get(address), contents["contents"]
        if channel is None:
            continue
        if channel[0] == "map" and edit["type"] == "set":
            channel[1][edit["key"]] = edit["value"]["value"]
        elif channel[0] == "map" and edit["type"] == "delete":
            channel[1].pop(edit["key"], None)
        elif channel[0] == "counter" and edit["type"] == "increment":
            channels[address] = ("counter", channel[1] + edit["incrementAmount"])
    return channels


# ---- the document


class Row:
    """What the rules say of a joined client."""

    def __init__(self, reference, scopes):
        self.number, self.reference, self.scopes, self.is_marked = 0, reference, scopes, False


class Document:
    """Raw records get their verdicts one after another. No client of a workload leaves, and none proposes."""

    def __init__(self):
        self.rows, self.messages = {}, []
        self.members = []  # (number of the join's message, id, detail)
        self.verdicts = []  # the words of all verdicts so far
        self.summaries = []  # the numbers of the summarizes that wait
        self.acknowledged = []  # (handle, reference, app) of each summaryAck

    def minimum(self):
        return min((row.reference for row in self.rows.values()), default=len(self.messages))

    def last_minimum(self):
        return self.messages[-1]["minimum"] if self.messages else 0

    def enter(self, record):
        """The word of its verdict: sequenced, nacked, dropped or absorbed."""
        verdict = {"join": self._join, "submit": self._submit, "report": self._report}[record["raw"]](record)
        self.verdicts.append(verdict)
        return verdict

    def _sequence(self, kind, contents, reference=-1):
        """The rows are already those behind it, but where nobody is joined the minimum is the message's own number."""
        self.messages.append({"type": kind, "contents": contents, "reference": reference})
        self.messages[-1]["minimum"] = self.minimum()
        return "sequenced"

    def _join(self, record):
        id_ = record["clientId"]
        if id_ in self.rows:
            return "dropped"
        self.rows[id_] = Row(self.minimum(), record["scopes"])
        self.members.append((len(self.messages) + 1, id_, record["detail"]))
        return self._sequence("join", None)

    def _submit(self, record):
        operation, row = record["operation"], self.rows.get(record["clientId"])
        number, reference = operation["clientSequenceNumber"], operation["referenceSequenceNumber"]
        if row and number <= row.number:
            return "dropped"
        if row and number > row.number + 1 or not row or row.is_marked:
            return "nacked"
        if reference < self.minimum():
            row.number, row.reference, row.is_marked = number, self.minimum(), True
            return "nacked"
        if reference > len(self.messages) or operation["type"] == "summarize" and "summary:write" not in row.scopes:
            return "nacked"
        row.number, row.reference = number, reference
        if operation["type"] == "noop" and (operation["contents"] is None or self.minimum() <= self.last_minimum()):
            return "absorbed"
        if operation["type"] == "summarize":
            self.summaries.append(len(self.messages) + 1)
        return self._sequence(operation["type"], operation["contents"], reference)

    def _report(self, record):
        if not self.summaries or record["summary"] != self.summaries[0]:
            return "dropped"
        asked = self.messages[self.summaries.pop(0) - 1]
        contents, (head, least, _) = asked["contents"], self.acknowledged[-1] if self.acknowledged else ("", 0, None)
        is_formed = isinstance(contents, dict) and re.fullmatch("[0-9a-f]{40}", contents.get("handle", "")) and "head" in contents
        if not is_formed or contents["head"] != head or asked["reference"] < least or not record["found"]:
            return self._sequence("summaryNack", None)
        self.acknowledged.append((self.version_id(contents["handle"], asked["reference"]), asked["reference"], contents["handle"]))
        return self._sequence("summaryAck", None)

    def version_id(self, app, number):
        """The id of the version of this app tree behind so many messages."""
        minimum = self.messages[number - 1]["minimum"] if number else 0
        members = [{"clientId": id_, "detail": detail, "sequenceNumber": at} for at, id_, detail in self.members if at <= number]
        protocol = blobs_id({
            "attributes": printed({"minimumSequenceNumber": minimum, "sequenceNumber": number}),
            "quorumMembers": printed(sorted(members, key=lambda member: member["clientId"].encode())),
            "quorumProposals": printed([]),
            "quorumValues": printed([]),
        })
        return tree_id([(".app", True, app), (".protocol", True, protocol)])


def summary(records):
    """The lines of these raw records, and the words of their verdicts."""
    document = Document()
    for record in records:
        document.enter(record)
    state = app_id(replay(document.messages))
    # The last container is loaded from the last acknowledged summary, whose tree is the channels at its reference.
    _, base, app = document.acknowledged[-1] if document.acknowledged else ("", 0, tree_id([]))
    channels = replay(document.messages[:base])
    loaded = app_id(replay(document.messages[base:], channels)) if app_id(channels) == app else None
    count = document.verdicts.count
    return [
        f"messages {len(document.messages)}",
        f"dropped {count('dropped')}",
        f"absorbed {count('absorbed')}",
        f"nacked {count('nacked')}",
        f"summaries {len(document.acknowledged)}",
        f"state {state}",
        f"loaded {'same' if loaded == state else 'different'}",
    ], document.verdicts


if __name__ == "__main__":
    print("\n".join(summary(json.loads(line) for line in sys.stdin)[0]))
