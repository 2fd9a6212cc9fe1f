"""The other end of a `share`: requests and their answers, over its socket. A thread reads, so that all is read soon."""
from __future__ import annotations

import json
import queue
import socket
import threading
from typing import Any, Callable, Dict, Optional

from ..program.mistakes import Mistake
from . import tokens

Message = Dict[str, Any]


class Client:
    """A connection to a share, with a seat there. `hear` is given each event, by another thread.

    Mistake where there is none at this path, or it has no seat for the name. A request that was stopped midway, as by
    Ctrl-C, does no harm: its answer is not taken for another's. `untold` says why the token of the name could not be
    kept; it is empty where it was."""

    def __init__(self, path: str, name: str, hear: Callable[[Message], None]) -> None:
        self.path, self.name, self.hear = path, name, hear
        self.number = 0
        self.is_torn = False
        self.token, self.untold = tokens.stored(path, name), ""
        self.seat = self._connect()

    def ask(self, do: str, **more: Any) -> Message:
        """The answer to a request. Mistake where it is an error, or the share has gone."""
        if self.is_torn:
            self.line.close()
            self.seat = self._connect()
        return self._ask(do, more)

    def close(self) -> None:
        """Leaves."""
        self.line.close()

    def _connect(self) -> int:
        self.line = socket.socket(socket.AF_UNIX)
        try:
            self.line.connect(self.path)
        except OSError as error:
            raise Mistake("there is no share: %s" % (error.strerror or error), self.path) from None
        self.answers: "queue.Queue[Optional[Message]]" = queue.Queue()
        threading.Thread(target=self._read, args=(self.line, self.answers), daemon=True).start()
        return self._enter()

    def _enter(self) -> int:
        """Enters under the name, with its token where one is known: the seat."""
        known = {} if self.token is None else {"token": self.token}
        told = self._ask("enter", {"as": self.name, **known})
        if told["token"] != self.token:
            self.token = told["token"]
            self.untold = tokens.store(self.path, self.name, told["token"])
        seat: int = told["seat"]
        return seat

    def _ask(self, do: str, more: Message) -> Message:
        self.number += 1
        self.is_torn = True
        try:
            self.line.sendall(json.dumps({"id": self.number, "do": do, **more}).encode("ascii") + b"\n")
        except OSError:
            raise self._gone() from None
        self.is_torn = False
        while True:
            answer = self.answers.get()
            if answer is None:
                raise self._gone()
            if answer.get("id") in (self.number, None):
                break
        if "error" in answer:
            raise Mistake(answer["error"])
        return answer

    def _gone(self) -> Mistake:
        self.is_torn = True
        return Mistake("the share has gone", self.path)

    def _read(self, line: socket.socket, answers: "queue.Queue[Optional[Message]]") -> None:
        try:
            with line.makefile("rb") as messages:
                for each in messages:
                    message = json.loads(each)
                    if "event" in message:
                        self.hear(message)
                    else:
                        answers.put(message)
        except (OSError, ValueError):
            pass
        finally:
            answers.put(None)
