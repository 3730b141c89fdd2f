"""The way to a shard: its actor, what it is asked, and what is told where its worker has died."""
from __future__ import annotations

import importlib
from typing import Any, Callable, List, Mapping, Tuple

from ..program import ProgramEnded
from ..refusal import Refused
from .errors import ShardLost, ShardRefused
from .messages import Setting
from .shard import Shard

# by its name, since its functions have no types
distributed: Any = importlib.import_module("distributed")
# seconds after which it is looked whether a worker that is waited for is still there
LOOK = 3.0


class Pending:
    """A call of a shard that is on its way."""

    def __init__(self, link: Link, future: Any, lost: Exception | None = None) -> None:
        self._link = link
        self._future = future
        self._lost = lost

    @property
    def shard(self) -> int:
        """The number of the shard."""
        return self._link.number

    def wait(self) -> Any:
        """What the call gives; raises what it raised, `ShardLost` where the worker or the program has ended."""
        while self._lost is None:
            try:
                value, raised = self._future.result(timeout=LOOK)
            except distributed.TimeoutError:
                # an answer that got lost with its worker never comes
                if not self._link.is_there:
                    self._lost = ConnectionError("the worker has left")
            except Exception as lost:
                self._lost = lost
            else:
                if raised is None:
                    return value
                if not isinstance(raised, ProgramEnded):
                    raise raised
                self._lost = raised
        why = str(self._lost) or type(self._lost).__name__
        raise ShardLost(self._link.number, self._link.worker, why) from self._lost


class Link:
    """A shard's number, the address of its worker, and its actor there."""

    def __init__(self, number: int, worker: str, actor: Any) -> None:
        self.number = number
        self.worker = worker
        self._actor = actor
        self._held = distributed.Future(actor.key)
        # cursors that nobody holds any more, closed before the next call
        self.abandoned: List[str] = []

    def __reduce__(self) -> Tuple[Any, ...]:
        return Link, (self.number, self.worker, self._actor)

    @property
    def is_there(self) -> bool:
        """Whether the scheduler still knows of the actor and its worker."""
        return self._held.status in ("pending", "finished") and self.worker in workers(distributed.get_client())

    def ask(self, name: str, *arguments: Any) -> Pending:
        """Begins a call."""
        closing, self.abandoned = self.abandoned, []
        try:
            return Pending(self, self._actor.call(name, arguments, closing))
        except Exception as lost:
            return Pending(self, None, lost)


def workers(client: Any) -> List[str]:
    """The addresses of the workers that are there."""
    return sorted(client.scheduler_info()["workers"])


def started(client: Any, number: int, worker: str, setting: Setting) -> Link:
    """Starts a shard on a worker."""
    actor = client.submit(Shard, number, setting, workers=[worker], allow_other_workers=False, actor=True, pure=False)
    return Link(number, worker, actor.result())


def all_of(pending: Mapping[int, Pending], told: Callable[[Any], None] = lambda value: None) -> dict[int, Any]:
    """What calls give, by the shard, each told as it comes; where some are refused or lost, that, with what others have done."""
    done: dict[int, Any] = {}
    refusals: dict[int, Refused] = {}
    lost: ShardLost | None = None
    for number, call in pending.items():
        try:
            done[number] = call.wait()
            told(done[number])
        except Refused as refused:
            refusals[number] = refused
        except ShardLost as caught:
            lost = lost or caught
    if lost:
        raise ShardLost(lost.shard, lost.worker, lost.why, done) from lost
    if refusals:
        raise ShardRefused(refusals, done)
    return done
