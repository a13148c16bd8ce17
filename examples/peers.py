"""The other end of a wire, by hand: a client of RFC 6455, one of lines, and the server that they talk to. It takes nothing but
Python's own library."""
import base64
import hashlib
import os
import re
import socket
import struct
import subprocess
import sys
from pathlib import Path

TOP = Path(__file__).resolve().parent.parent
GUID = b"258EAFA5-E914-47DA-95CA-C5AB0DC85B11"
TEXT, BINARY, CLOSE, PING, PONG = 1, 2, 8, 9, 10


class Refused(Exception):
    """The server answered the handshake with another status than 101, or with nothing."""


class Server:
    """A program that says in a line of its standard error where it listens; other lines may stand before it."""

    def __init__(self, words, shell=None):
        command = [str(word) for word in words]
        if shell:
            command = ["sh", "-c", f'{shell} && exec "$@"', "sh", *command]
        self.process = subprocess.Popen(command, stdin=subprocess.DEVNULL, stdout=subprocess.DEVNULL,
                                        stderr=subprocess.PIPE)
        said, found = "", None
        for line in map(bytes.decode, self.process.stderr):
            said += line
            if found := re.match(r"listening on 127\.0\.0\.1:(\d+) ", line):
                break
        if not found:
            sys.exit(f"the server says {said!r}")
        self.said, self.line = said, line.strip()
        self.port = int(found[1])

    def __enter__(self):
        return self

    def __exit__(self, *_):
        self.process.terminate()  # `bin/fluidd` ends what it started then
        try:
            self.process.wait(10)
        except subprocess.TimeoutExpired:
            self.process.kill()


def built(crate, words):
    """The words of a proved program, which is built where it is missing or older than a source."""
    program = TOP / "crates" / crate / "out" / crate
    sources = (TOP / "crates").glob("*/src/**/*.rt")
    if not program.exists() or any(path.stat().st_mtime > program.stat().st_mtime for path in sources):
        print(f"proving and building {crate}, which takes some minutes", file=sys.stderr)
        subprocess.run(["rt", "run", "--", *words], cwd=TOP / "crates" / crate, stdin=subprocess.DEVNULL,
                       stdout=sys.stderr, check=True)
    return [program]


class Stream:
    """A connection on which bytes are read by their number."""

    def __init__(self, port, limit=10):
        self.socket = socket.create_connection(("127.0.0.1", port), timeout=limit)
        self.socket.setsockopt(socket.IPPROTO_TCP, socket.TCP_NODELAY, 1)
        self.held = b""

    def fill(self):
        """Reads what there is; nothing at the end."""
        more = self.socket.recv(65536)
        self.held += more
        return more

    def take(self, count):
        while len(self.held) < count:
            if not self.fill():
                raise EOFError
        taken, self.held = self.held[:count], self.held[count:]
        return taken

    def fileno(self):
        return self.socket.fileno()

    def shut(self):
        self.socket.close()


class Lines(Stream):
    """A peer with one text a line."""

    def send(self, text):
        self.socket.sendall(text.encode() + b"\n")

    def whole(self):
        """The texts that are held whole."""
        *lines, self.held = self.held.split(b"\n")
        return [line.decode() for line in lines]


class WebSocket(Stream):
    """A peer by RFC 6455. It offers compression, which the server may leave."""

    def __init__(self, port, origin=None, limit=10):
        super().__init__(port, limit)
        key = base64.b64encode(os.urandom(16))
        head = [b"GET / HTTP/1.1", b"Host: localhost", b"Upgrade: websocket", b"Connection: Upgrade",
                b"Sec-WebSocket-Version: 13", b"Sec-WebSocket-Key: " + key,
                b"Sec-WebSocket-Extensions: permessage-deflate; client_max_window_bits"]
        if origin is not None:
            head.append(b"Origin: " + origin.encode())
        self.socket.sendall(b"\r\n".join(head) + b"\r\n\r\n")
        while b"\r\n\r\n" not in self.held:
            if not self.fill():
                break
        self.head, _, self.held = self.held.partition(b"\r\n\r\n")
        if not self.head.startswith(b"HTTP/1.1 101 "):
            raise Refused(self.head.split(b"\r\n")[0].decode())
        want = base64.b64encode(hashlib.sha1(key + GUID).digest())
        if b"sec-websocket-accept: " + want.lower() not in self.head.lower():
            raise Refused("another key")

    def frame(self, code, payload):
        """Sends one whole frame."""
        mask = os.urandom(4)
        size = len(payload)
        if size < 126:
            head = struct.pack("!BB", 0x80 | code, 0x80 | size)
        elif size < 65536:
            head = struct.pack("!BBH", 0x80 | code, 0xFE, size)
        else:
            head = struct.pack("!BBQ", 0x80 | code, 0xFF, size)
        masked = bytes(byte ^ mask[i % 4] for i, byte in enumerate(payload))
        self.socket.sendall(head + mask + masked)

    def send(self, text):
        self.frame(TEXT, text.encode())

    def size_of_first(self):
        """The sizes of the head and of the payload of the first frame that is held, where it is whole."""
        if len(self.held) < 2:
            return None
        size, head = self.held[1], 2
        if size == 126:
            head = 4
            size = struct.unpack("!H", self.held[2:4])[0] if len(self.held) >= 4 else 1 << 62
        elif size == 127:
            head = 10
            size = struct.unpack("!Q", self.held[2:10])[0] if len(self.held) >= 10 else 1 << 62
        return (head, size) if len(self.held) >= head + size else None

    def read(self):
        """The next frame: its code and its payload."""
        while not (sizes := self.size_of_first()):
            if not self.fill():
                raise EOFError
        head, size = sizes
        code = self.take(head)[0] & 15
        return code, self.take(size)

    def whole(self):
        """The texts that are held whole."""
        texts = []
        while self.size_of_first():
            code, payload = self.read()
            if code == TEXT:
                texts.append(payload.decode())
        return texts
