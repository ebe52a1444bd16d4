"""The news of a live page: its newest updates, for any number of streams that wait for them, each at its own place."""
from __future__ import annotations

import json
import threading
from collections import deque
from dataclasses import dataclass
from itertools import islice
from typing import Deque, Iterator, List, Mapping

MOST_STREAMS = 200
MOST_UPDATES = 1000
MOST_BYTES = 32 << 20


def message(data: Mapping[str, object]) -> bytes:
    """A message of a text/event-stream."""
    return f"data: {json.dumps(data, separators=(',', ':'))}\n\n".encode()


RELOAD = message({"reload": True})


@dataclass
class Stream:
    """What a watcher has been sent: everything up to a version, and the newest number of people."""

    version: int
    people: int = 0
    is_over: bool = False


class News:
    """Updates with versions from 1 on, of which the newest are kept, the number of people watching, and the end."""

    def __init__(self) -> None:
        self._changed = threading.Condition()
        self._kept: Deque[bytes] = deque()
        self._bytes = 0
        self._ended = b""
        self.version = self.people = 0

    @property
    def has_ended(self) -> bool:
        return bool(self._ended)

    @property
    def ending(self) -> List[bytes]:
        """The message that nothing more will come, if that is so."""
        return [self._ended] if self._ended else []

    def publish(self, update: Mapping[str, object]) -> None:
        """Makes an update the next version."""
        news = message({"version": self.version + 1, **update, "people": self.people})
        with self._changed:
            self.version += 1
            self._kept.append(news)
            self._bytes += len(news)
            while len(self._kept) > MOST_UPDATES or self._bytes > MOST_BYTES:
                self._bytes -= len(self._kept.popleft())
            self._changed.notify_all()

    def end(self, why: str) -> None:
        """Announces that nothing more will come; the first reason counts."""
        with self._changed:
            self._ended = self._ended or message({"ended": why})
            self._changed.notify_all()

    def come(self) -> bool:
        """Counts a new watcher, unless there are too many; returns whether it did."""
        with self._changed:
            if self.people == MOST_STREAMS:
                return False
            self.people += 1
            self._changed.notify_all()
            return True

    def go(self) -> None:
        """Counts one watcher less."""
        with self._changed:
            self.people -= 1
            self._changed.notify_all()

    def awaited(self, stream: Stream, seconds: float) -> List[bytes]:
        """The messages that a stream lacks, as soon as there are some; none if none come within this many seconds."""
        with self._changed:
            self._changed.wait_for(lambda: self._has_news(stream), seconds)
            return self._taken(stream)

    def all_for(self, stream: Stream, seconds: float) -> Iterator[List[bytes]]:
        """All messages for a stream as they come, up to the end; none where none come within this many seconds."""
        while not stream.is_over:
            yield self.awaited(stream, seconds)

    def everybody_left(self, seconds: float) -> bool:
        """Waits until nobody watches any more, at most this many seconds."""
        with self._changed:
            return self._changed.wait_for(lambda: not self.people, seconds)

    def _has_news(self, stream: Stream) -> bool:
        return stream.version != self.version or stream.people != self.people or self.has_ended

    def _taken(self, stream: Stream) -> List[bytes]:
        lacks = self.version - stream.version
        if not 0 <= lacks <= len(self._kept):
            stream.is_over = True
            return [RELOAD]
        messages = list(islice(self._kept, len(self._kept) - lacks, None))
        if stream.people != self.people:
            messages.append(message({"people": self.people}))
        if self._ended:
            messages.append(self._ended)
        stream.version, stream.people, stream.is_over = self.version, self.people, self.has_ended
        return messages
