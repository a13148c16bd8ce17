#!/usr/bin/env python3
"""A client of the service over the library `websockets`: examples/client.py DOCUMENT [PORT or URL], else 7070. It shows each message
of the document and sends what is typed: `title = hello` sets a key of the map `board`, `+3` or `-2` goes to the counter `count`."""
import asyncio
import contextlib
import json
import sys
import threading

try:
    import websockets
except ModuleNotFoundError:
    sys.exit("the library `websockets` is missing: pip install websockets, or Debian's python3-websockets and /usr/bin/python3")

CHANNELS = [{"type": "attach", "address": "board", "kind": "map"}, {"type": "attach", "address": "count", "kind": "counter"}]


class Client:
    def __init__(self, document):
        self.edits = [[body, None] for body in CHANNELS]  # what didn't come back yet: the body, the id and number it went under
        self.under = None  # the last id under which an edit was sent, until its leave is heard
        self.document, self.id, self.is_ready, self.held, self.number, self.newest = document, None, False, {}, 0, None

    async def hear(self, event, *rest):
        if event == "connect_document_success":
            self.id, self.last, self.reach, messages = rest[0]["clientId"], 0, rest[0]["checkpointSequenceNumber"], []
            is_other = self.number > self.reach
        elif event in ("op", "deltas"):
            messages, is_other = rest[1], event == "deltas" and rest[0] == self.number and rest[1][0] != self.newest
        else:  # an error or a nack: the line is of no more use
            print("--", json.dumps(rest), flush=True)
            if event == "nack" and not self.id:  # the connect itself isn't taken, and never will be
                raise ValueError("a document's name has 1 to 64 of A-Z a-z 0-9 _ -")
            self.id = None
            return
        if is_other:
            print("-- another order stands here: the service began anew, and so do I", flush=True)
            self.number, self.under, self.edits = 0, None, [[body, None] for body in CHANNELS + [body for body, _ in self.edits]]
        self.held.update((message["sequenceNumber"], message) for message in messages)
        while message := self.held.pop(self.number + 1, None):
            self.take(message)
        if event != "op":  # asks for what lies before the feed, from the last message that it has on: is it the same one?
            self.is_ready = self.number >= self.reach and (event == "deltas" or self.reach == 0)
        if event != "op" and not self.is_ready:
            await self.say("getDeltas", max(self.number, 1), min(self.number + 2048, self.reach + 1))
        await self.send_waiting()

    def take(self, message):
        self.number, self.newest, who = message["sequenceNumber"], message, message["clientId"]
        print(f"#{self.number} {who} {message['type']}", message.get("data") or json.dumps(message["contents"]), flush=True)
        self.edits = [edit for edit in self.edits if edit[1] != (who, message["clientSequenceNumber"])]
        if message["type"] == "leave":  # what didn't come before its line's leave never comes, and has to be sent again
            left = json.loads(message["data"])
            self.edits = [[body, None if sent and sent[0] == left else sent] for body, sent in self.edits]
            self.id, self.under = (None if left == own else own for own in (self.id, self.under))

    async def say(self, *event):
        with contextlib.suppress(websockets.ConnectionClosed):  # who reads learns it too
            await self.socket.send(json.dumps(event))

    async def submit(self, kind, body):
        self.last += 1
        await self.say("submitOp", self.id, [{"clientSequenceNumber": self.last, "contents": body,
                                              "referenceSequenceNumber": self.number, "type": kind}])

    async def send_waiting(self):  # no edit before the leave of an earlier id under which one was sent
        for edit in [edit for edit in self.edits if not edit[1]]:
            if self.id and self.is_ready and self.under in (None, self.id) and not edit[1]:
                edit[1], self.under = (self.id, self.last + 1), self.id
                await self.submit("op", edit[0])

    async def stay(self, url):
        print("-- calling", url, flush=True)
        async for self.socket in websockets.connect(url, max_size=None):
            await self.say("connect_document", {"id": self.document, "scopes": ["doc:read", "doc:write"], "client": "client.py"})
            with contextlib.suppress(websockets.ConnectionClosed):
                async for text in self.socket:
                    await self.hear(*json.loads(text))
                    if not self.id:
                        break
            print("-- no line; coming back", flush=True)
            self.id, self.held = None, {}
            await asyncio.sleep(1)

    async def type(self, line):
        key, equals, value = (part.strip() for part in line.partition("="))
        body = {"address": "board", "contents": {"type": "set", "key": key, "value": {"type": "Plain", "value": value}}}
        if key[:1] in ("+", "-") and key[1:].isdecimal() and len(key) < 17:
            body = {"address": "count", "contents": {"type": "increment", "incrementAmount": int(key)}}
        elif not equals:
            return print("-- KEY = VALUE, +N or -N; left out", flush=True)
        if len(json.dumps(body)) > 1_000_000:  # a text beyond maxMessageSize ends the line, and would end each one after it
            return print("-- too long, left out", flush=True)
        self.edits.append([body, None])
        await self.send_waiting()


async def main(document, place="7070"):
    sys.stdin.reconfigure(errors="replace")  # what is typed and isn't UTF-8 would be no text
    client, loop = Client(document), asyncio.get_running_loop()
    typed = (asyncio.run_coroutine_threadsafe(client.type(line), loop).result() for line in sys.stdin if line.strip())
    threading.Thread(target=list, args=[typed], daemon=True).start()
    staying = asyncio.create_task(client.stay(place if "://" in place else f"ws://127.0.0.1:{place}"))
    while not (await asyncio.wait([staying], timeout=60))[0]:
        if client.id and client.is_ready:  # who says nothing for five minutes is taken for gone
            await client.submit("noop", None)
    staying.result()  # the fault that ended it


words = sys.argv[1:]
if len(words) not in (1, 2) or not all("://" in place or place.isdecimal() for place in words[1:]):
    sys.exit("usage: examples/client.py DOCUMENT [PORT or URL]")
try:
    asyncio.run(main(*words))
except KeyboardInterrupt:
    sys.exit(130)
except (OSError, ValueError, websockets.InvalidURI) as fault:
    sys.exit(f"client.py: {fault}")
