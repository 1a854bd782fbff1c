"""More than one process: indexes, mailboxes and sweeps that Dask's scheduler spreads over workers.

It needs Dask, which the package alone doesn't: `python3-distributed` on Debian, or `distributed` and
`dask` from a package index. Each worker needs this package and the shared library too.
"""

from ..errors import DaskMissing

try:
    import dask.bag
    import distributed
except ImportError as error:
    raise DaskMissing(
        f"deolmutt.cluster runs on Dask, which is not here ({error}). Install python3-distributed"
        " (Debian), or dask and distributed (pip)"
    ) from error

from .errors import (
    BadSnapshot,
    MissingShard,
    NoClone,
    NoSnapshot,
    NoWorker,
    OtherShards,
    OtherStore,
    OtherVersion,
    ShardLost,
    ToolRefused,
    WrongChecksum,
)
from .explore import Broken, Interleavings, explore
from .index import Row, index, printed
from .mailboxes import Mailboxes
from .rendezvous import shard_of
from .sweep import Finding, sweep

__all__ = [
    "BadSnapshot",
    "Broken",
    "DaskMissing",
    "Finding",
    "Interleavings",
    "Mailboxes",
    "MissingShard",
    "NoClone",
    "NoSnapshot",
    "NoWorker",
    "OtherShards",
    "OtherStore",
    "OtherVersion",
    "Row",
    "ShardLost",
    "ToolRefused",
    "WrongChecksum",
    "explore",
    "index",
    "printed",
    "shard_of",
    "sweep",
]
