"""What goes wrong with shards, as exceptions."""
from __future__ import annotations

from typing import Any, Mapping

from ..refusal import Refused


class NotSpread(ValueError):
    """A plan, or a statement, that can't be carried out over relations that are spread so; its text says why."""


class ShardLost(Exception):
    """A shard is gone, since its worker or its program has ended; what it had is lost but for its journal.

    `shard` is its number, `worker` the address of the worker that had it, `why` what was seen of the end. `done` are the
    shards that had carried out what was asked, with what they answered.
    """

    def __init__(self, shard: int, worker: str, why: str, done: Mapping[int, Any] | None = None) -> None:
        super().__init__(shard, worker, why, dict(done or {}))
        self.shard = shard
        self.worker = worker
        self.why = why
        self.done = dict(done or {})

    def __str__(self) -> str:
        return f"shard {self.shard} is lost, on worker {self.worker}: {self.why}" + told_done(self.done)


class ShardRefused(Refused):
    """Some shards refused, so the call is refused; number, word and line are those of the first that did.

    `refusals` are the refusals by the shard's number. `done` are the shards that had carried out what was asked, with what
    they answered: nothing takes that back.
    """

    def __init__(self, refusals: Mapping[int, Refused], done: Mapping[int, Any] | None = None) -> None:
        self.shard = min(refusals)
        first = refusals[self.shard]
        super().__init__(first.number, first.word, first.details, first.line, first.given)
        self.args = (dict(refusals), dict(done or {}))
        self.refusals = dict(refusals)
        self.done = dict(done or {})

    def __str__(self) -> str:
        return f"{super().__str__()} (shard {self.shard})" + told_done(self.done)


def told_done(done: Mapping[int, Any]) -> str:
    """Which shards have carried it out, as the end of a sentence."""
    if not done:
        return ""
    return f"; carried out by shard{'s' if len(done) > 1 else ''} {', '.join(map(str, sorted(done)))}"
