"""Why a store has ended, and whether its device has failed: then nobody may go on from what the system still has in memory.

After a sync that failed the system may give to whoever reads what the disk does not have. Forms that are answered over it are lost with it.
"""

from __future__ import annotations

import errno
import re
from typing import NamedTuple

ENDED_BY_DEVICE = 5
"""The status of a node whose device has failed. The units do not start it again."""

OF_A_DEVICE_ALONE = frozenset({errno.EIO, errno.EUCLEAN, errno.EREMOTEIO})
"""The errors that say so in whatever call they come."""

OF_A_DEVICE = OF_A_DEVICE_ALONE | {errno.ENXIO, errno.ENODEV, errno.EROFS, errno.ESTALE, errno.ENOMEDIUM}
"""Those that say so as a store is opened. A file system that lost something may be read alone from then on."""

OF_ROOM = frozenset({errno.ENOSPC, errno.EDQUOT, errno.EFBIG})
"""Those of a call for which there is no room, and which has done nothing."""

NO_STORE = "there is no store in this folder"
"""The cause that the program tells, behind the path of the folder, where it is not to make what is missing."""

ONE_SYNC = "the store is kept with one sync: open it with --one-sync"
"""The cause that it tells behind 66 where a word is missing."""

DEVICE = b"! 60 "
VERSION = b"! 66 "
SYSTEM_ERROR = re.compile(r".*\(os error ([0-9]+)\)")


class DeviceError(OSError):
    """The device has failed: what was written last may be in memory and not on the disk."""


class Fault(NamedTuple):
    """What a program told as it ended: its last refusal, and after 60 and 66 the cause; both empty where it told nothing."""

    refusal: bytes = b""
    cause: str = ""

    def heard(self, line: bytes) -> Fault:
        """The fault after one more line of standard error."""
        if line.startswith(b"! "):
            return Fault(line.strip())
        if self.refusal.startswith((DEVICE, VERSION)) and not self.cause:
            return Fault(self.refusal, line.strip().decode("utf-8", "replace"))
        return self

    def __str__(self) -> str:
        told = self.refusal[2:].decode("utf-8", "replace")
        return f"{told}: {self.cause}" if self.cause else told

    @property
    def system_error(self) -> int:
        """The number of the system's error in the cause, or 0."""
        found = SYSTEM_ERROR.fullmatch(self.cause) if self.refusal.startswith(DEVICE) else None
        return int(found[1]) if found else 0

    def look(self, was_open: bool) -> None:
        """DeviceError where the device of the store has failed: while it was open by any error but that there is no room, and as it was opened
        by one that is of a device. FileNotFoundError where there is no store, and none was to be made; OSError where it lacks a word."""
        number = self.system_error
        if number in OF_A_DEVICE or (was_open and number and number not in OF_ROOM):
            raise DeviceError(number, str(self))
        if self.refusal.startswith(DEVICE) and self.cause.endswith(NO_STORE):
            raise FileNotFoundError(errno.ENOENT, NO_STORE)
        if self.refusal.startswith(VERSION) and self.cause == ONE_SYNC:
            raise OSError(errno.EINVAL, ONE_SYNC)


def is_of_device(error: OSError) -> bool:
    """Whether a call that failed so says that the device has failed."""
    return isinstance(error, DeviceError) or error.errno in OF_A_DEVICE_ALONE
