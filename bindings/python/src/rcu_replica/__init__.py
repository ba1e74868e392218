"""Grace periods over a cluster: a proved replica a machine, which hears of the others over Redis.

`Machine` is what a service embeds, and `rcu-replica` the command. `Replica` is for another message
system: what needs redis-py is imported at its first use. README.md beside the package tells more.
"""
from __future__ import annotations

from importlib import import_module
from typing import TYPE_CHECKING, Any

from .library import Fault, Replica

if TYPE_CHECKING:
    from .machine import Machine
    from .protocol import Protocol
    from .streams import Begin, Lost, Replaced, Stopping, Streams

__all__ = ["Begin", "Fault", "Lost", "Machine", "Protocol", "Replaced", "Replica", "Stopping",
           "Streams"]


def __getattr__(name: str) -> Any:
    if name not in __all__:
        raise AttributeError(f"module {__name__!r} has no attribute {name!r}")
    module = {"Machine": "machine", "Protocol": "protocol"}.get(name, "streams")
    return getattr(import_module(f"{__name__}.{module}"), name)
