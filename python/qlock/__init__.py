"""The voter and the client of a voting lock, and plans of the quorums to ask, over the libraries libqlock and libqlock_plan.

A `Voter` or a `Client` is a state and its calls. A call returns the lines to send, and changes `state`, the bytes to save.
Save, then send: a `Store` keeps the bytes in a file over crashes, and makes no state anew. A `Fence` guards what the lock
protects. A `Plan` says which quorum to ask, ticket by ticket. Why a coterie or a plan was refused is in the module `refusals`.

The module `agent` takes locks of the lock service, by the agent of a host (`docs/service.md`). It needs no library.

For planners, `python3 -m qlock import KIND FILE` writes the coterie of a system that runs (module `imports`), and the module
`figures` draws plans. These are not loaded with the package.

The libraries are found by the environment variable QLOCK_LIBRARY, the path of libqlock.so, with libqlock_plan.so beside it or
at QLOCK_PLAN_LIBRARY; or they are in the wheel; or by their names. Each is loaded at its first call. `library_version()` is the
version of libqlock.
"""
from . import refusals
from .automata import (
    CLIENT_BYTES,
    MAX_STAMP,
    PASS_BYTES,
    VOTER_BYTES,
    Client,
    Fence,
    Grant,
    Known,
    Phase,
    Taken,
    Voter,
    has_quorum,
    is_bridge,
)
from .faults import (
    BadArgument,
    BadMessage,
    BadState,
    Busy,
    Fault,
    GrantsSpent,
    NoMemory,
    NoPass,
    NoRoom,
    NotAsking,
    NotInside,
    OlderGrant,
    Refused,
    StampsSpent,
    TurnsSpent,
)
from .library import library_version
from .plans import MAX_TICKETS, Failure, Order, Plan, Quorum, Slack, names_of
from .store import Damaged, Exists, InUse, Missing, Store, StoreFault, WrongOwner

__version__ = "0.2.0"

__all__ = [
    "BadArgument", "BadMessage", "BadState", "Busy", "CLIENT_BYTES", "Client", "Damaged", "Exists", "Failure", "Fault", "Fence",
    "Grant", "GrantsSpent", "InUse", "Known", "MAX_STAMP", "MAX_TICKETS", "Missing", "NoMemory", "NoPass", "NoRoom", "NotAsking",
    "NotInside", "OlderGrant", "Order", "PASS_BYTES", "Phase", "Plan", "Quorum", "Refused", "Slack", "StampsSpent",
    "Store", "StoreFault", "Taken", "TurnsSpent", "VOTER_BYTES", "Voter", "WrongOwner", "has_quorum", "is_bridge",
    "library_version", "names_of",
    "refusals",
]
