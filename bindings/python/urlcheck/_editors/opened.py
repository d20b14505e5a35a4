"""The texts that an editor holds open. Several threads have them checked, each by a process of its own, so that a text that
takes long holds up no other."""

import os
import threading
import time
from typing import Any, Callable, Dict, List, Optional

from .checking import Checking, Seen, failed
from .editing import Text

MOST_WORKERS = max(2, min(4, os.cpu_count() or 1))
"""How many texts are checked at once."""

HELD_UP = 0.2
"""How many seconds a text waits for a process that checks another one, before one more process is started."""

MOST_WAITED = 20
"""How many seconds a request waits for a text to be checked."""

_NEVER = float("inf")


class Outdated(Exception):
    """What is raised if a text changes before it is known what is seen in it."""


class Document:
    """A document that is open."""

    def __init__(self, uri: str, language: Any, text: Text, number: Optional[int]) -> None:
        self.uri = uri
        self.language = language
        self.text = text
        self.number = number
        """The version of the text, if the client counts them."""
        self.by: Any = None
        """What it was checked by."""
        self.changes = 0
        """How many times it was changed."""
        self.due: Optional[float] = None
        """When it is to be checked, if it is."""
        self.seen: Optional[Seen] = None
        """What was seen in it as it is now, once that is known."""
        self.is_held = False
        """Whether it is being checked."""
        self.last: Optional["_Worker"] = None
        """What checked it last, and keeps what it was read as."""


class _Worker:
    """A thread that has texts checked, one after the other."""

    def __init__(self) -> None:
        self.checking = Checking()
        self.is_idle = True


Check = Callable[[Checking, Document, str, Callable[[], bool]], Optional[Seen]]
"""What checks a document whose text is this one, by a process. It gives nothing if the text was superseded, which the last
argument says."""

Tell = Callable[[Document, Seen, Optional[int]], None]
"""What tells a client what is seen in a document, whose text has this version."""


class Opened:
    """The documents that are open."""

    def __init__(self, check: Check, tell: Tell) -> None:
        self._check = check
        self._tell = tell
        self._documents: Dict[str, Document] = {}
        self._changed = threading.Condition()
        self._workers = [_Worker() for _ in range(MOST_WORKERS)]
        self._is_ending = False

    def start(self) -> None:
        """Begins to check. The first process is started, so that the first text doesn't wait for it."""
        self._workers[0].checking.start()
        for worker in self._workers:
            threading.Thread(target=self._run, args=(worker,), daemon=True).start()

    def end(self) -> None:
        """Ends the checking."""
        with self._changed:
            self._is_ending = True
            self._changed.notify_all()
        for worker in self._workers:
            worker.checking.end()

    def put(self, document: Document) -> None:
        """Takes a document, and has it checked."""
        with self._changed:
            self._documents[document.uri] = document
            self._changed_now(document, 0)

    def change(self, uri: str, number: Optional[int], changes: List[Dict[str, Any]], wait: float) -> None:
        """Takes changes of a document, and has it checked after so many seconds. Raises ``LookupError``, ``TypeError``
        or ``ValueError`` for one that isn't open, and for changes that aren't well formed."""
        with self._changed:
            document = self._documents[uri]
            document.number = number
            try:
                document.text.change(changes)
            finally:
                self._changed_now(document, wait)

    def close(self, uri: str) -> Optional[Document]:
        """Forgets a document, and gives it if it was open."""
        with self._changed:
            self._changed.notify_all()
            return self._documents.pop(uri, None)

    def check_again(self, is_wanted: Callable[[Document], bool]) -> None:
        """Has the documents checked again for which this is true."""
        with self._changed:
            documents = list(self._documents.values())
        wanted = [it for it in documents if is_wanted(it)]
        with self._changed:
            for document in wanted:
                self._changed_now(document, 0)

    def seeing(self, uri: str) -> Callable[[], "tuple[Seen, Optional[int]]"]:
        """What gives what is seen in a text as it is now, and its version, once that is known. It raises ``Outdated``
        if the text changes before."""
        with self._changed:
            document = self._documents.get(uri)
            changes = document.changes if document is not None else 0

        def seen() -> "tuple[Seen, Optional[int]]":
            """Waits until the text was checked."""
            until = time.monotonic() + MOST_WAITED
            with self._changed:
                while document is not None:
                    left = until - time.monotonic()
                    if self._is_ending or left <= 0 or self._is_superseded(document, changes):
                        raise Outdated
                    if document.seen is not None:
                        return document.seen, document.number
                    self._changed.wait(left)
            return Seen([], []), None

        return seen

    def _changed_now(self, document: Document, wait: float) -> None:
        """Notes that a text has changed, and has it checked after so many seconds. The lock is held."""
        document.changes += 1
        document.seen = None
        # (a text that is typed into is checked now and then, and not only at the end)
        document.due = min(document.due or _NEVER, time.monotonic() + wait)
        self._changed.notify_all()

    def _run(self, worker: _Worker) -> None:
        """Has checked what is due, one text after the other, until the end."""
        while True:
            with self._changed:
                document = self._next(worker)
                if document is None:
                    return
                document.due, document.is_held, document.last, worker.is_idle = None, True, worker, False
                changes, text = document.changes, document.text.whole()
                self._changed.notify_all()
            seen = self._seen(worker, document, text, changes)
            with self._changed:
                is_told = seen is not None and not self._is_superseded(document, changes)
                document.seen, number = (seen if is_told else document.seen), document.number
                self._changed.notify_all()
            if seen is not None and is_told:
                self._tell(document, seen, number)
            # (until then no other thread has it, so that nothing that is older is told last)
            with self._changed:
                document.is_held, worker.is_idle = False, True
                self._changed.notify_all()

    def _seen(self, worker: _Worker, document: Document, text: str, changes: int) -> Optional[Seen]:
        """What is seen in a text. Whatever fails is said only of this one, and the next is checked."""
        try:
            return self._check(worker.checking, document, text, lambda: self._is_superseded(document, changes))
        except Exception as error:
            return failed(error)

    def _next(self, worker: _Worker) -> Optional[Document]:
        """The document that a thread is to have checked, once one is due; none at the end."""
        while not self._is_ending:
            now, first = time.monotonic(), _NEVER
            due = (it for it in self._documents.values() if it.due is not None and not it.is_held)
            for document in sorted(due, key=lambda it: it.due or 0):
                turn = self._turn(document, worker)
                if turn <= now:
                    return document
                first = min(first, turn)
            self._changed.wait(None if first == _NEVER else first - now)
        return None

    def _turn(self, document: Document, worker: _Worker) -> float:
        """When a thread may take a document that is due: at once if nothing else is better for it, which is what
        checked it last, and then what has a process. Only if none of those is idle, another process is started."""
        idle = [it for it in self._workers if it.is_idle]
        ready = [it for it in idle if it.checking.is_started()]
        best = document.last if document.last in ready else (ready or idle)[0]
        if worker is not best or document.due is None:
            return _NEVER
        return document.due if ready or len(idle) == len(self._workers) else document.due + HELD_UP

    def _is_superseded(self, document: Document, changes: int) -> bool:
        """Whether a text has changed since, or was closed."""
        return document.changes != changes or self._documents.get(document.uri) is not document
