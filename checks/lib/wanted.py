"""What has to hold."""

from __future__ import annotations


class Deviation(Exception):
    """Something was lost, changed or answered that must not be."""


def want(holds: object, *what: object) -> None:
    """Goes on where it holds, and else fails with what is told of it."""
    if not holds:
        raise Deviation(" ".join(map(str, what)))
