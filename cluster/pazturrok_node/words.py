"""The words of the command line of a node."""

from __future__ import annotations

import argparse
import ipaddress
import os
import re
import socket
import sys

from . import VERSION
from .clients import MOST_CLIENTS
from .node import SILENCE
from .room import QUOTA

MEMBER = "http://127.0.0.1:2379"
"""The member that is asked where none is named."""

LONGEST_PATH = 107
"""How many bytes the path of a socket may have."""

ORDERS = ("serve", "seed", "nodes", "begin", "skip")

ABOUT = """Many clients of one store: of a store on this machine alone, or of a replica, by a log in etcd.

  pazturrok-node FOLDER --alone  serves clients, with the store in FOLDER and without etcd
  pazturrok-node FOLDER          serves clients, and carries out the entries of the log on the store in FOLDER
  pazturrok-node seed FOLDER     takes the store of another node, in place of the one in FOLDER
  pazturrok-node nodes           tells which nodes run, where, and how far their stores have come
  pazturrok-node begin FOLDER    begins a log that is not there with this store, as after the loss of etcd
  pazturrok-node skip NUMBER     has all nodes skip the entry before which their stores end again and again"""


def program_beside(node: str) -> str:
    """Returns the program that stands beside this node, or in the folder above it, as in a clone; or else its name, for PATH."""
    for place in (os.path.dirname(os.path.abspath(node)), os.path.dirname(os.path.dirname(os.path.realpath(node)))):
        program = os.path.join(place, "pazturrok")
        if os.path.isfile(program) and os.access(program, os.X_OK):
            return program
    return "pazturrok"


def parser_of_words() -> argparse.ArgumentParser:
    parser = argparse.ArgumentParser(prog="pazturrok-node", description=ABOUT, formatter_class=argparse.RawDescriptionHelpFormatter)
    parser.add_argument("order", nargs="*", metavar="FOLDER")
    parser.add_argument("--alone", action="store_true", help="this store is the only one: there is no etcd")
    parser.add_argument("--etcd", help=f"the members, with commas between them; {MEMBER}")
    parser.add_argument("--etcd-ca", metavar="FILE", help="who signs for the members")
    parser.add_argument("--etcd-cert", metavar="FILE", help="this node for the members, with its key in one file")
    parser.add_argument("--listen", default="127.0.0.1:7411", help="HOST:PORT, or unix:PATH, a socket")
    parser.add_argument("--keys", metavar="FOLDER", help="for all ways: ca.crt, and NAME.pem with the name of this node (cluster/certificates)")
    parser.add_argument("--cert", metavar="FILE", help="this node for its clients by TLS, with its key in one file")
    parser.add_argument("--client-ca", metavar="FILE", help="who signs for clients: others are not heard")
    parser.add_argument("--open", action="store_true", help="listen beyond this machine without TLS")
    parser.add_argument("--advertise", metavar="PLACE", help="where other nodes reach this one, if not at --listen")
    parser.add_argument("--from", dest="source", metavar="PLACE", help="with seed: the node whose store is taken")
    parser.add_argument("--again", action="store_true", help="with begin: in place of the log that is there, while no node runs")
    parser.add_argument("--quota", type=int, metavar="BYTES", help=f"that of the members, --quota-backend-bytes of etcd, {QUOTA}")
    parser.add_argument("--store-silence", type=float, default=SILENCE, metavar="SECONDS", help=f"a store that says nothing so long is ended, {SILENCE:.0f}")
    parser.add_argument("--log", help="which log in etcd, letters and digits: store")
    parser.add_argument("--name", default=socket.gethostname(), help="the name of this node, which no other of the log may have")
    parser.add_argument("--program", default=program_beside(sys.argv[0]), help="the program of the store; the one beside this, or else in PATH")
    parser.add_argument("--existing", action="store_true", help="a folder that holds no store is refused")
    parser.add_argument("--one-sync", action="store_true", help="as the program has it: one sync for a form that writes, on a disk whose writes mix")
    parser.add_argument("--snapshot-every", metavar="N", help="as the program has it")
    parser.add_argument("--keep", type=float, default=600, metavar="SECONDS", help="a name stays so long at least, 600")
    parser.add_argument("--compare-every", type=float, default=3600, metavar="SECONDS", help="the worlds of the stores are compared so often, 3600; 0: never")
    parser.add_argument("--most-clients", type=int, default=MOST_CLIENTS, metavar="N", help=f"so many may be connected, {MOST_CLIENTS}")
    parser.add_argument("--monitor", metavar="PLACE", help="HOST:PORT, or unix:PATH, for GET /health and GET /metrics")
    parser.add_argument("--version", action="version", version=f"pazturrok-node {VERSION}")
    return parser


def words() -> argparse.Namespace:
    parser = parser_of_words()
    asked = parser.parse_args()
    if len(asked.order) == 1 and asked.order[0] not in ORDERS:
        asked.order.insert(0, "serve")
    if asked.order == ["nodes"]:
        asked.order.append("")
    elif len(asked.order) != 2 or asked.order[0] not in ORDERS or asked.order[0] == "nodes":
        parser.error("which folder?")
    for word, order in (("again", "begin"), ("source", "seed")):
        if getattr(asked, word) and asked.order[0] != order:
            parser.error(f"--{'from' if word == 'source' else word} goes with {order}")
    if asked.order[0] == "skip" and not re.fullmatch(r"[1-9][0-9]{0,18}", asked.order[1]):
        parser.error(f"{asked.order[1]!r} is no number of an entry")
    if asked.keys:
        take_keys(asked)
    if asked.alone:
        look_at_alone(parser, asked)
    asked.etcd = MEMBER if asked.etcd is None else asked.etcd
    asked.log = "store" if asked.log is None else asked.log
    for place in ("listen", "monitor", "advertise", "source"):
        setattr(asked, place, place_of(getattr(asked, place)))
    for word in (asked.log, asked.name):
        if not re.fullmatch(r"[A-Za-z0-9._-]{1,100}", word):
            parser.error(f"{word!r} is no name")
    look_at_members(parser, asked)
    if asked.most_clients < 1:
        parser.error("--most-clients is 1 or more")
    if asked.quota is not None and asked.quota < 1:
        parser.error("--quota is 1 or more")
    look_at_places(parser, asked)
    return asked


def place_of(word: str | None) -> str | None:
    """A word without `unix:`. A path has a slash then."""
    if word is None or not word.startswith("unix:"):
        return word
    path = word[len("unix:") :]
    return path if "/" in path else os.path.join(".", path)


def take_keys(asked: argparse.Namespace) -> None:
    """What is not said of certificates is in one folder."""
    ca, own = os.path.join(asked.keys, "ca.crt"), os.path.join(asked.keys, f"{asked.name}.pem")
    asked.client_ca, asked.cert = asked.client_ca or ca, asked.cert or own
    if not asked.alone:
        asked.etcd_ca, asked.etcd_cert = asked.etcd_ca or ca, asked.etcd_cert or own


def look_at_alone(parser: argparse.ArgumentParser, asked: argparse.Namespace) -> None:
    if asked.order[0] != "serve":
        parser.error(f"--alone is for a node that serves, and {asked.order[0]} is an order for those over etcd")
    for word in ("etcd", "etcd_ca", "etcd_cert", "log", "quota", "advertise", "source"):
        if getattr(asked, word) is not None:
            parser.error(f"--{'from' if word == 'source' else word.replace('_', '-')} is for a node over etcd, and this one is --alone")


def look_at_places(parser: argparse.ArgumentParser, asked: argparse.Namespace) -> None:
    for place in [place for place in (asked.listen, asked.monitor, asked.advertise, asked.source) if place]:
        if "/" not in place and not re.fullmatch(r".*:[0-9]{1,5}", place):
            parser.error(f"{place!r} is no HOST:PORT, and no path with a slash")
        if "/" in place and len(os.fsencode(place)) > LONGEST_PATH:
            parser.error(f"{place!r} is longer than the path of a socket may be, {LONGEST_PATH} bytes")
    if asked.client_ca and not asked.cert:
        parser.error("--client-ca wants --cert")
    if "/" not in asked.listen and not asked.cert and not asked.open and not is_loopback(asked.listen):
        parser.error(f"{asked.listen} is beyond this machine: give --cert, or --open where the network is your own")
    if asked.monitor and "/" not in asked.monitor and not asked.open and not is_loopback(asked.monitor):
        parser.error(f"{asked.monitor} is beyond this machine: give --open where the network is your own")


def look_at_members(parser: argparse.ArgumentParser, asked: argparse.Namespace) -> None:
    for url in asked.etcd.split(","):
        if not re.fullmatch(r"https?://[^/?#@]+/?", url):
            parser.error(f"{url!r} is no member of etcd: http://HOST:PORT, or https://HOST:PORT")
        if (asked.etcd_ca or asked.etcd_cert) and not url.startswith("https:"):
            parser.error(f"--etcd-ca and --etcd-cert want https, and {url} has none")


def is_loopback(place: str) -> bool:
    try:
        return ipaddress.ip_address(place.rpartition(":")[0].strip("[]")).is_loopback
    except ValueError:
        return place.rpartition(":")[0] == "localhost"
