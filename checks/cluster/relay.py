"""A relay between a node and a member of etcd. What goes through it is HTTP; single requests may be held, or sent a second time later, as by
a network that is slow."""
import contextlib
import re
import socket
import threading

from waits import LONG

LENGTH = re.compile(rb"\r\ncontent-length: *([0-9]+)\r\n", re.IGNORECASE)


class Kept:
    """A request that was looked for: whether it has come, and how it may be sent later."""

    def __init__(self, target, matches, is_held):
        self.target, self.matches, self.is_held = target, matches, is_held
        self.came, self.may_go, self.text = threading.Event(), threading.Event(), b""

    def let_go(self):
        """Lets a request go on that was held."""
        self.may_go.set()

    def send_again(self):
        """Sends the request once more, on a connection of its own, and gives the first bytes of the answer."""
        with socket.create_connection(self.target, LONG) as one:
            one.sendall(self.text)
            return one.recv(1 << 16)


class Relay:
    """Listens on a port of its own, and hands each request on to the target, a host and a port."""

    def __init__(self, target):
        self.target, self.wanted = target, []
        self.listener = socket.create_server(("127.0.0.1", 0), backlog=64)
        self.url = f"http://127.0.0.1:{self.listener.getsockname()[1]}"
        self.every = len
        """What is called with each request that was handed on."""
        threading.Thread(target=self.accept, daemon=True).start()

    def hold(self, *words):
        """The next request with all of these words in it is held until it is let go."""
        return self.look_for(words, True)

    def keep(self, *words):
        """The next request with all of these words in it goes on, and is kept, so that it may be sent again."""
        return self.look_for(words, False)

    def look_for(self, words, is_held):
        kept = Kept(self.target, words, is_held)
        self.wanted.append(kept)
        return kept

    def accept(self):
        with contextlib.suppress(OSError):
            while True:
                one, _ = self.listener.accept()
                threading.Thread(target=self.serve, args=(one,), daemon=True).start()

    def serve(self, one):
        with contextlib.suppress(OSError), one, socket.create_connection(self.target) as other:
            threading.Thread(target=pump, args=(other, one), daemon=True).start()
            held = b""
            while piece := one.recv(1 << 16):
                held += piece
                while (size := size_of_request(held)) is not None:
                    request, held = held[:size], held[size:]
                    self.hand_on(request, other)

    def hand_on(self, request, other):
        kept = next((kept for kept in self.wanted if all(word in request for word in kept.matches)), None)
        if kept:
            self.wanted.remove(kept)
            kept.text = request
            kept.came.set()
            if kept.is_held:
                kept.may_go.wait(LONG)
        with contextlib.suppress(OSError):
            other.sendall(request)
        self.every(request)

    def close(self):
        self.listener.close()


def pump(source, sink):
    with contextlib.suppress(OSError):
        while data := source.recv(1 << 16):
            sink.sendall(data)
        sink.shutdown(socket.SHUT_RDWR)


def size_of_request(text):
    """How many of these bytes are the first request; None where it is not whole."""
    head, found, _ = text.partition(b"\r\n\r\n")
    if not found:
        return None
    size = len(head) + 4 + int(LENGTH.search(head + b"\r\n")[1])
    return size if len(text) >= size else None
