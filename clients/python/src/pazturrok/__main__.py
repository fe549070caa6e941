"""Sends forms to the node of a store, or to those of several machines, and writes what they answer."""

from __future__ import annotations

import argparse
import os
import ssl
import sys
from collections.abc import Callable, Sequence

from . import NodeStore, StoreError
from .errors import UnansweredError
from .printer import printed
from .values import Value


def parser_of_words() -> argparse.ArgumentParser:
    parser = argparse.ArgumentParser(prog="python3 -m pazturrok", description=__doc__)
    parser.add_argument("nodes", help="HOST:PORT, or unix:PATH, with commas between them")
    parser.add_argument("forms", nargs="+", metavar="FORM", help="the text of a form")
    parser.add_argument("--read", action="store_true", help="ask, after all that was answered before; nothing changes")
    parser.add_argument("--ca", metavar="FILE", help="who signs for the nodes")
    parser.add_argument("--cert", metavar="FILE", help="this client, with its key in one file")
    parser.add_argument("--seconds", type=float, default=30.0, help="how long a form may take, 30")
    return parser


def main() -> int:
    asked = parser_of_words().parse_args()
    try:
        context = context_of(asked.ca, asked.cert)
        with NodeStore(asked.nodes.split(","), time_limit=asked.seconds, context=context) as store:
            return send_all(lambda form: store.read(form) if asked.read else store.do(form), asked.forms)
    except (StoreError, ValueError) as error:
        tell(str(error))
    return 1


def send_all(send: Callable[[str], Value], forms: Sequence[str]) -> int:
    """Sends forms one after the other, and writes their values. After one that is refused the next is sent, and after
    one without an answer, or whose value nobody takes, none: it tells how many are left. The status is 0 if each has a
    value."""
    status = 0
    for sent, form in enumerate(forms, 1):
        try:
            print(printed(send(form)), flush=True)
        except UnansweredError as error:
            return end_early(str(error), len(forms) - sent)
        except StoreError as error:
            tell(str(error))
            status = 1
        except OSError as error:
            # what Python still has of it goes nowhere, as it would be tried again at the end
            os.dup2(os.open(os.devnull, os.O_WRONLY), sys.stdout.fileno())
            return end_early(f"standard output takes no more: {error.strerror}", len(forms) - sent)
    return status


def end_early(reason: str, left: int) -> int:
    """Tells why no more forms are sent, and how many are left. Gives the status."""
    tell(reason)
    if left:
        tell(f"{left} form{'s' if left > 1 else ''} after it {'were' if left > 1 else 'was'} not sent")
    return 1


def tell(text: str) -> None:
    print(f"pazturrok: {text}", file=sys.stderr, flush=True)


def context_of(authority: str | None, certificate: str | None) -> ssl.SSLContext | None:
    """By which nodes are known, and this client; None without TLS."""
    if not authority and not certificate:
        return None
    file = authority
    try:
        context = ssl.create_default_context(cafile=authority)
        if certificate:
            file = certificate
            context.load_cert_chain(certificate)
    except OSError as error:
        raise ValueError(f"{file}: {error.strerror or error}") from error
    return context


if __name__ == "__main__":
    sys.exit(main())
