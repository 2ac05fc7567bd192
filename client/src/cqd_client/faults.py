"""The exit statuses of the command, and what ends a call without an answer."""
from __future__ import annotations

PASSED, FAILED, UNKNOWN, MISUSED = 0, 1, 2, 3
STATUSES = ("exit status: 0 the gate passed or none was asked, 1 the gate failed, 2 it could not be determined, "
            "3 wrong arguments or configuration")


class Fault(Exception):
    """Why a call has no answer, in words for its user. It exits with 2."""


class Misuse(Exception):
    """What is wrong with the arguments or the configuration file. It exits with 3."""


class Lost(Fault):
    """The connection ended before a reply came."""


class Restarted(Fault):
    """The server has forgotten changes that it reported in this call."""
