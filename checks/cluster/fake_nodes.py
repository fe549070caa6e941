#!/usr/bin/env python3
"""Nodes that stand in for real ones: they share a counter, carry out each name once, and lose connections by chance, before an answer or within it.

usage: checks/cluster/fake_nodes.py COUNT LOSES: tells where they listen, in a line, and serves until its input ends"""
from __future__ import annotations

import contextlib
import random
import socket
import sys
import threading
import time

from cluster import OWN

ADD = "(INCF (GET 'COUNTER 'KY))"

LOSE = "(LOSE)"
"""A text by which each node loses the connection."""


class FakeNodes:
    """Nodes that carry out each name once, and lose connections by chance, before an answer or within it."""

    def __init__(self, count: int = 2, loses: float = 0.0) -> None:
        self.chance, self.loses, self.lock = random.Random(1), loses, threading.Lock()
        self.value, self.number, self.done, self.heads = 0, 0, {}, []
        self.is_silent = [False] * count
        self.greetings = [("ask", '(:VERSION 1 :NODE "0.0.0" :NAME "fake")')] * count
        """What each of them answers to a client's version; after a refusal it ends the connection."""
        self.listeners = [socket.create_server((OWN, 0)) for _ in range(count)]
        self.names = [f"{OWN}:{one.getsockname()[1]}" for one in self.listeners]
        for place in range(count):
            threading.Thread(target=self.listen, args=(place,), daemon=True).start()

    def listen(self, place: int) -> None:
        with contextlib.suppress(OSError):
            while True:
                connection, _ = self.listeners[place].accept()
                threading.Thread(target=self.serve, args=(place, connection), daemon=True).start()

    def serve(self, place: int, connection: socket.socket) -> None:
        stream = connection.makefile("rwb")
        # who begins with TLS sends no frame: ValueError
        with contextlib.suppress(OSError, ValueError), connection, stream:
            while head := stream.readline().split():
                text = stream.read(int(head[-1]) + 1)[:-1].decode()
                while self.is_silent[place]:
                    time.sleep(0.02)
                if text == LOSE:
                    self.heads.append(head[0].decode())
                    return
                is_greeting = head[0] == b"version"
                kind, answer = self.greetings[place] if is_greeting else self.answer([word.decode() for word in head], text)
                whole = f"{kind} {len(answer)}\n{answer}\n".encode()
                if self.chance.random() < self.loses and len(head) > 2:
                    stream.write(whole[: self.chance.randrange(len(whole))])
                    return
                stream.write(whole)
                stream.flush()
                if is_greeting and answer.startswith("! "):
                    return

    def answer(self, head: list[str], text: str) -> tuple[str, str]:
        with self.lock:
            self.heads.append(" ".join(head))
            if head[0] != "do":
                if "*PACKAGE*" not in text:
                    return "ask", str(self.value)
                found = text.replace("COMMON-LISP:", "").replace("'", "").partition("*PACKAGE* ")[2]
                return "ask", f'("COMMON-LISP-USER" {found}'
            if head[1] not in self.done:
                self.number += 1
                self.done[head[1]] = text, (str(self.number), self.carry_out(text))
            before, answer = self.done[head[1]]
            return answer if text == before else ("0", "! 55 OTHER-TEXT")

    def carry_out(self, text: str) -> str:
        if text != ADD:
            return {")": "! 4 STRAY-CLOSE", "OLD": "! 50 OLD-NUMBER"}.get(text, "(A \"b\n\" NIL T)")
        self.value += 1
        return str(self.value)

    def close(self) -> None:
        for one in self.listeners:
            with contextlib.suppress(OSError):
                one.shutdown(socket.SHUT_RDWR)
            one.close()


def main() -> None:
    nodes = FakeNodes(int(sys.argv[1]), float(sys.argv[2]))
    print(*nodes.names, flush=True)
    sys.stdin.read()


if __name__ == "__main__":
    main()
