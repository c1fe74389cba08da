"""A connection to a server, and the replies that come over it."""

import socket

from bench.harness.patience import PATIENCE


class Closed(Exception):
    """The server has closed the connection."""


def connect(port, patience=PATIENCE):
    """A connection whose small messages are sent at once."""
    stream = socket.create_connection(("127.0.0.1", port), timeout=patience)
    stream.setsockopt(socket.IPPROTO_TCP, socket.TCP_NODELAY, 1)
    return stream


def read_lines(stream, count):
    """The bytes of so many lines, or of those before the end."""
    text = b""
    while text.count(b"\n") < count:
        part = stream.recv(65536)
        if not part:
            break
        text += part
    return text


def read_all(stream):
    """All bytes up to the end, or up to a reset."""
    text = b""
    try:
        while part := stream.recv(65536):
            text += part
    except ConnectionResetError:
        pass
    return text


def say(stream, lines):
    """Sends lines, each of which has a reply of one line, and gives the replies."""
    stream.sendall(lines)
    return read_lines(stream, lines.count(b"\n"))


def more_lines(first):
    """How many lines stand behind the first one of a reply."""
    words = first.split()
    return int(words[-1].rstrip(",")) if words and words[0] in ("rows", "done", "rolledback") else 0


class Client:
    """A connection that sends a line and reads the whole reply before the next one. `told` is the reply to its first
    line, where it has one."""

    def __init__(self, port, first=None, patience=PATIENCE):
        try:
            self.stream = connect(port, patience)
        except ConnectionResetError:  # it was taken, and closed before this side knew that it was
            raise Closed from None
        self.file = self.stream.makefile("rb")
        self.told = None if first is None else self.ask(first)

    def line(self):
        """The next line that comes."""
        try:
            line = self.file.readline()
        except ConnectionError:
            raise Closed from None
        if not line.endswith(b"\n"):
            raise Closed
        return line[:-1].decode("latin-1")

    def send(self, text):
        try:
            self.stream.sendall(text.encode("latin-1"))
        except ConnectionError:
            raise Closed from None

    def reply(self):
        """The lines of the next reply."""
        first = self.line()
        return [first, *(self.line() for _ in range(more_lines(first)))]

    def replies(self, line):
        """All lines of the reply to a line."""
        self.send(f"{line}\n")
        return self.reply()

    def ask(self, line):
        """The first line of the reply to a line."""
        return self.replies(line)[0]

    def close(self):
        self.file.close()
        self.stream.close()

    def __enter__(self):
        return self

    def __exit__(self, *_why):
        self.close()
