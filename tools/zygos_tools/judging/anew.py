"""Where a server must have counted its uniques anew in an order of a key in which they need not rise.

Two items of one key have the same unique only if the server was started again between them, and lost what it had. So
one of the calls between the two that can follow a loss, a `set` or an `add`, is taken to follow one.
"""
from __future__ import annotations

from collections.abc import Iterable, Iterator
from dataclasses import dataclass

from zygos_tools.judging.events import ADD, CAS, DELETE, FLUSH, GET, SET, Event


@dataclass
class Span:
    """A time in which a key has one item: the place of the call that made it, whether that call can follow a loss or
    does so, and the unique of the item, if it was seen."""

    place: int
    can_follow: bool
    follows: bool
    unique: int | None = None


def spans(calls: Iterable[tuple[Event, bool, bool]]) -> Iterator[Span]:
    """The items of a key in an order of its calls, each with whether it changed the key and whether it follows a loss."""
    now: Span | None = None
    for place, (event, is_change, was_lost) in enumerate(calls):
        if event.kind == CAS and is_change and now:
            now.unique = event.given or None
        if event.kind == GET and event.unique and now:
            now.unique = event.unique
        if is_change:
            if now:
                yield now
            stores = event.kind not in (DELETE, FLUSH) and event.want != "failed"
            now = Span(place, event.kind in (SET, ADD), was_lost) if stores else None
    if now:
        yield now


def begun_anew(calls: Iterable[tuple[Event, bool, bool]]) -> list[int]:
    """The places of the calls that are taken to follow a loss, besides those that do."""
    found: list[int] = []
    # the items since the last loss, and the number of the item with each unique
    since: list[Span] = []
    of_unique: dict[int, int] = {}
    for span in spans(calls):
        if span.follows:
            since, of_unique = [], {}
        since.append(span)
        if span.unique in of_unique:
            after = range(len(since) - 1, of_unique[span.unique], -1)
            at = next((at for at in after if since[at].can_follow), None)
            if at is not None:
                found.append(since[at].place)
                since = since[at:]
                of_unique = {one.unique: number for number, one in enumerate(since) if one.unique is not None}
        if span.unique is not None:
            of_unique[span.unique] = len(since) - 1
    return found
