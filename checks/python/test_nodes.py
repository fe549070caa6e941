"""Nodes: ones that stand in for them, which share a counter and lose connections; and real ones over etcd, where that is installed."""

from __future__ import annotations

import os
import re
import shutil
import socket
import ssl
import subprocess
import sys
import threading
import unittest
from typing import Any
from unittest import mock

from pazturrok import ClosedStoreError, LostAnswerError, NodeStore, NoNodeError, RefusedError, UnsendableError
from lib.places import CLIENT
from support import LONG, NODE, PROGRAM, StoreTest

CHECKS = os.path.join(os.path.dirname(os.path.abspath(__file__)), "..")
sys.path.insert(0, os.path.join(CHECKS, "cluster"))

from fake_nodes import ADD, LOSE, FakeNodes  # noqa: E402

LOOK = "(GET 'COUNTER 'KY)"
SHELL = {**os.environ, "PYTHONPATH": CLIENT}


class Nodes(StoreTest):
    def nodes(self, **options: Any) -> FakeNodes:
        nodes = FakeNodes(**options)
        self.addCleanup(nodes.close)
        return nodes

    def test_values_refusals_and_reads(self) -> None:
        nodes = self.nodes()
        with NodeStore(nodes.names) as store:
            self.assertEqual(1, store.do(ADD))
            outcomes = store.do_all([ADD, ")", "OLD", ADD])
            self.assertEqual([2, 4, 4, 3], [getattr(outcome, "number", outcome) for outcome in outcomes])
            self.assertIsInstance(outcomes[2], LostAnswerError)
            self.assertEqual("b\n", store.do("(LIST 'A \"b\n\" NIL T)")[1])
            self.assertEqual((3, 3), (store.ask(LOOK), store.read(LOOK)))
            self.assertEqual([f"{kind} {len(LOOK)}" for kind in ("ask", "read")], nodes.heads[-2:])
            with self.assertRaises(RefusedError):
                store.do(")")
            for text in ("ä", "x" * 1_048_577):
                with self.assertRaises(UnsendableError):
                    store.do(text)
        with self.assertRaises(ClosedStoreError):
            store.do(ADD)

    def test_sent_again_under_its_name(self) -> None:
        nodes = self.nodes(loses=0.1)
        with NodeStore(nodes.names) as store:
            values = [value for _ in range(10) for value in store.do_all([ADD] * 30)]
            self.assertEqual(list(range(1, 301)), values)
            self.assertEqual(300, store.read(LOOK))
        self.assertGreater(len(nodes.heads), 310)

    def test_a_name_of_ones_own(self) -> None:
        nodes = self.nodes()
        for _ in range(2):
            with NodeStore(nodes.names) as store:
                self.assertEqual(1, store.do(ADD, name="order-17"))
                with self.assertRaises(RefusedError) as raised:
                    store.do("(LIST 1)", name="order-17")
                self.assertEqual((55, "OTHER-TEXT"), (raised.exception.number, raised.exception.name))
        self.assertEqual(1, nodes.value)

    def test_a_name_that_is_none(self) -> None:
        nodes = self.nodes()
        with NodeStore(nodes.names) as store:
            for name in ("", "a b", "a/b", "x" * 101, "x 5\n(LIST 1)\ndo y", "\u00e4"):
                with self.assertRaises(UnsendableError):
                    store.do(ADD, name=name)
        self.assertEqual([], nodes.heads)

    def test_a_message_is_sent_again_for_a_while_and_no_longer(self) -> None:
        nodes = self.nodes()
        with NodeStore(nodes.names, patience=0.2, time_limit=60) as store, mock.patch("pazturrok.nodes.RESEND", 1.0):
            self.assertEqual(1, store.do(ADD))
            nodes.is_silent = [True, True]
            with self.assertRaises(NoNodeError) as raised:
                store.do(ADD)
            self.assertLess(raised.exception.seconds, 30)
            nodes.is_silent = [False, False]

    def test_forms_from_a_shell(self) -> None:
        nodes = self.nodes()
        places, lost = ",".join(nodes.names), self.nodes(count=1)
        gone = lost.names[0]
        lost.close()
        for words, wanted in (
            ([places, ADD, ADD], (0, "1\n2\n", "")),
            (["--read", places, LOOK], (0, "2\n", "")),
            ([places, ")"], (1, "", "pazturrok: 4 STRAY-CLOSE: )\n")),
            ([places, ADD, ")", "\u00e4", ADD], (1, "3\n4\n", "pazturrok: 4 STRAY-CLOSE: )\npazturrok: '\u00e4' cannot be sent: .\n")),
            (["--seconds", "1", gone, ADD, ADD, ADD], (1, "", "pazturrok: no node answered within .\npazturrok: 2 forms after it were not sent\n")),
            (["--seconds", "1", gone, ADD, ADD], (1, "", "pazturrok: no node answered within .\npazturrok: 1 form after it was not sent\n")),
            (["nowhere", ADD], (1, "", "pazturrok: a node is HOST:PORT, or unix: and the path of a socket, and not 'nowhere'\n")),
            (["--ca", "/nowhere/ca", places, ADD], (1, "", "pazturrok: /nowhere/ca: No such file or directory\n")),
        ):
            told = subprocess.run([sys.executable, "-B", "-m", "pazturrok", *words], capture_output=True, text=True, env=SHELL, check=False)
            self.assertEqual(wanted, (told.returncode, told.stdout, re.sub(r"(?<=within|.sent:) .*", " .", told.stderr)))

    def test_forms_from_a_shell_before_a_reader_that_goes(self) -> None:
        nodes = self.nodes()
        reading, writing = os.pipe()
        os.close(reading)
        words = [sys.executable, "-B", "-m", "pazturrok", ",".join(nodes.names), ADD, ADD, ADD]
        told = subprocess.run(words, stdout=writing, stderr=subprocess.PIPE, text=True, env=SHELL, check=False)
        os.close(writing)
        wanted = "pazturrok: standard output takes no more: Broken pipe\npazturrok: 2 forms after it were not sent\n"
        self.assertEqual((1, wanted, 1), (told.returncode, told.stderr, nodes.value))

    def test_a_node_that_refuses_clients(self) -> None:
        nodes = self.nodes()
        nodes.greetings[0] = ("0", "! 54 NO-ROOM")
        with NodeStore(nodes.names) as store:
            self.assertEqual(1, store.do(ADD))
            self.assertEqual(nodes.names[1], store.node)
        nodes.greetings[0] = ("0", "! 58 OTHER-VERSION")
        with NodeStore(nodes.names) as store, self.assertRaises(RefusedError) as refused:
            store.do(ADD)
        self.assertEqual((58, "OTHER-VERSION"), (refused.exception.number, refused.exception.name))

    def test_a_node_that_says_nothing(self) -> None:
        nodes = self.nodes()
        with NodeStore(nodes.names, patience=0.3) as store:
            self.assertEqual(1, store.do(ADD))
            nodes.is_silent[0] = True
            self.assertEqual(2, store.do(ADD))
            self.assertEqual(nodes.names[1], store.node)
            nodes.is_silent[0] = False

    def test_a_question_is_not_carried_on_for_ever(self) -> None:
        nodes = self.nodes(count=3)
        with NodeStore(nodes.names, time_limit=LONG) as store:
            for kind in (store.ask, store.read):
                nodes.heads.clear()
                with self.assertRaisesRegex(NoNodeError, "it was sent 6 times"):
                    kind(LOSE)
                self.assertEqual(6, sum(head in ("ask", "read") for head in nodes.heads))
            self.assertEqual(1, store.do(ADD))

    def test_no_node(self) -> None:
        nodes = self.nodes()
        nodes.close()
        with NodeStore(nodes.names, time_limit=0.5) as store, self.assertRaises(NoNodeError) as raised:
            store.do_all([ADD, ADD])
        self.assertEqual([], raised.exception.outcomes)
        with self.assertRaises(ValueError):
            NodeStore([])

    def test_a_socket_by_its_path(self) -> None:
        nodes = self.nodes(count=1)
        path = os.path.join(self.folder, "node.socket")
        nodes.listeners[0].close()
        nodes.listeners[0] = socket.socket(socket.AF_UNIX)
        nodes.listeners[0].bind(path)
        nodes.listeners[0].listen()
        threading.Thread(target=nodes.listen, args=(0,), daemon=True).start()
        with NodeStore([path]) as store:
            self.assertEqual(1, store.do(ADD))
        missing = path + "-that-is-not-there"
        with NodeStore([missing], time_limit=0.1) as store, self.assertRaises(NoNodeError) as raised:
            store.do(ADD)
        self.assertIn(missing, str(raised.exception))


@unittest.skipUnless(shutil.which("etcd"), "etcd is not installed")
class RealNodes(StoreTest):
    def test_a_node_is_killed(self) -> None:
        from cluster import Cluster

        cluster = Cluster(self.folder, os.path.join(CHECKS, "cluster", "fake"), members=1, nodes=2)
        self.addCleanup(cluster.end)
        with NodeStore([f"{host}:{port}" for host, port in cluster.places]) as store:
            self.assertEqual(0, store.do("(SETF (GET 'COUNTER 'KY) 0)"))
            self.assertEqual([*range(1, 51)], store.do_all([ADD] * 50))
            cluster.nodes[0].kill()
            self.assertEqual([*range(51, 101)], store.do_all([ADD] * 50))
            self.assertEqual(100, store.read(LOOK))
        cluster.nodes[0].start()
        with NodeStore([f"{host}:{port}" for host, port in cluster.places[:1]]) as store:
            self.assertEqual(100, store.read(LOOK))


@unittest.skipUnless(shutil.which("openssl"), "openssl is not installed")
class Certificates(StoreTest):
    def test_a_node_with_another_certificate_is_told_at_once(self) -> None:
        from cluster import OWN, free_ports
        from secrets import Secrets

        ours, others, port = Secrets(self.folder), Secrets(self.folder, "others"), free_ports(1)[0]
        words = [NODE, os.path.join(self.folder, "store"), "--alone", "--listen", f"{OWN}:{port}", "--program", PROGRAM]
        node = subprocess.Popen([sys.executable, "-B", *words, "--cert", ours.both, "--client-ca", ours.ca], stderr=subprocess.DEVNULL)
        self.addCleanup(node.wait)
        self.addCleanup(node.terminate)
        place, plain = f"{OWN}:{port}", self.nodes_without_tls()
        with NodeStore([place], context=ours.context(), time_limit=LONG) as store:
            self.assertEqual(7, store.put("A", "B", 7))
        with NodeStore([place], context=others.context(), time_limit=LONG) as store, self.assertRaises(NoNodeError) as raised:
            store.get("A", "B")
        self.assertLess(raised.exception.seconds, LONG / 4)
        self.assertIn("certificate verify failed", str(raised.exception))
        nameless = ssl.create_default_context(cafile=ours.ca)
        # on a busy machine the first try may take longer than the first limit
        for limit in (2.0, 10.0, 50.0):
            with NodeStore([place], context=nameless, time_limit=limit) as store, self.assertRaises(NoNodeError) as raised:
                store.get("A", "B")
            if "the certificate of this client" in str(raised.exception):
                break
        self.assertIn("the certificate of this client", str(raised.exception))
        with NodeStore([plain, place], context=ours.context(), time_limit=LONG, patience=2.0) as store:
            self.assertEqual(7, store.get("A", "B"))

    def nodes_without_tls(self) -> str:
        nodes = FakeNodes(count=1)
        self.addCleanup(nodes.close)
        return nodes.names[0]
