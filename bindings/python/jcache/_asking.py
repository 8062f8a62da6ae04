"""How a call goes: it begins, its hooks are asked, and it replies."""

import struct
import threading
from array import array
from typing import Any, Callable, Dict, Iterable, Iterator, List, Optional, Tuple, Type, TypeVar, Union

from . import _calls as calls
from .errors import Failed, ListenerFailed, LoaderFailed, ProcessorFailed, WriterFailed, refusal
from .values import Configuration, Entry, Event, Result, Row

R = TypeVar("R")
T = TypeVar("T")

Clock = Callable[[], int]
Process = Callable[[Entry], None]

_FAILURES: Dict[int, Type[Failed]] = {
    calls.LOADER_FAILED: LoaderFailed, calls.WRITER_FAILED: WriterFailed, calls.PROCESSOR_FAILED: ProcessorFailed,
}
_KINDS = ("created", "updated", "removed", "expired")
_ROW = struct.Struct("<QBH")


class Asking:
    """A cache's hooks, with the lock that is held for a whole call on it."""

    def __init__(self, handle: calls.Calls, number: int, clock: Clock, hooks: Configuration) -> None:
        self._calls, self._id, self._clock, self._hooks = handle, number, clock, hooks
        self._lock = threading.RLock()
        self._cause: Optional[Exception] = None

    def _moment(self, now: Optional[int]) -> int:
        return self._clock() if now is None else now

    @staticmethod
    def _refuse(status: int) -> int:
        if status > calls.NEED_TELL:
            raise refusal(status)
        return status

    def _finish(self, status: int, process: Optional[Process] = None) -> int:
        """Answers a call's requests until it replies."""
        self._refuse(status)
        if status < calls.LOADER_FAILED:
            return status
        self._cause = None
        try:
            while status >= calls.NEED_LOAD:
                status = self._refuse(self._answer(status, process))
        except BaseException:
            self._calls.give_up(self._id)
            raise
        if status >= calls.LOADER_FAILED:
            raise _FAILURES[status](next(iter(self._calls.numbers(self._id)), None)) from self._cause
        return status

    def end(self) -> None:
        """Ends the cache, when its open call is done, if nobody else did. The manager calls this."""
        with self._lock:
            status = self._calls.destroy(self._id)
        if status != calls.NO_SUCH_CACHE:
            self._refuse(status)

    def _answer(self, status: int, process: Optional[Process]) -> int:
        if status == calls.NEED_TELL:
            return self._tell()
        key, value, _ = self._calls.shown(self._id)[0]
        if status == calls.NEED_LOAD:
            return self._load(key)
        if status == calls.NEED_PROCESS:
            return self._process(Entry(key, value), process)
        return self._write(key, value)

    def _load(self, key: str) -> int:
        try:
            value = self._hooks.loader(key) if self._hooks.loader else None
            if value is not None and not isinstance(value, bytes):
                raise TypeError("a value is bytes, not %s" % type(value).__name__)
        except Exception as cause:
            self._cause = cause
            return self._calls.load_failed(self._id)
        return self._calls.loaded_nothing(self._id) if value is None else self._calls.loaded(self._id, value)

    def _write(self, key: str, value: Optional[bytes]) -> int:
        try:
            if self._hooks.writer:
                self._hooks.writer(key, value)
        except Exception as cause:
            self._cause = cause
            return self._calls.write_failed(self._id)
        return self._calls.written(self._id)

    def _process(self, entry: Entry, process: Optional[Process]) -> int:
        try:
            if process:
                process(entry)
        except Exception as cause:
            self._cause = cause
            return self._calls.process_failed(self._id)
        return self._calls.processed(self._id, *entry.change())

    def _tell(self) -> int:
        numbers = self._calls.numbers(self._id)
        for number, (key, value, before) in zip(numbers, self._calls.shown(self._id)):
            event = Event(_KINDS[number], key, value, before)
            for listener in self._hooks.listeners:
                try:
                    listener(event)
                except Exception as cause:
                    raise ListenerFailed() from cause
        return self._calls.told(self._id)

    def _truth(self, status: int) -> bool:
        return self._finish(status) == calls.TRUE

    def _found(self, status: int, default: T) -> Union[bytes, T]:
        """The value that a call has found."""
        if self._finish(status) != calls.FOUND:
            return default
        value = self._calls.shown(self._id)[0][1]
        return default if value is None else value

    def _pairs(self) -> Dict[str, bytes]:
        return {key: value for key, value, _ in self._calls.shown(self._id) if value is not None}


def kept_in(results: Dict[str, Result[R]], function: Callable[..., R], arguments: Tuple[Any, ...]) -> Process:
    """What runs a function on an entry, and keeps by its key what that returned or raised."""
    def process(entry: Entry) -> None:
        try:
            results[entry.key] = Result(function(entry, *arguments), None)
        except Exception as cause:
            results[entry.key] = Result(None, cause)
            raise
    return process


def many(keys: Iterable[str]) -> Tuple[bytes, bytes]:
    """The lengths of keys, and the keys one after the other."""
    return joined([key.encode() for key in keys])


def joined(parts: List[bytes]) -> Tuple[bytes, bytes]:
    """The lengths of bytes, and the bytes one after the other."""
    return array("I", map(len, parts)).tobytes(), b"".join(parts)


def rows_of(text: bytes, now: int) -> Iterator[Row]:
    """The rows of a step of a walk that are live."""
    at = 0
    while at < len(text):
        expires, key, value = _ROW.unpack_from(text, at)
        middle = at + _ROW.size + key
        if expires > now or expires == calls.NEVER:
            yield Row(text[at + _ROW.size:middle].decode(), text[middle:middle + value],
                      None if expires == calls.NEVER else expires)
        at = middle + value


def names_of(text: bytes) -> Iterator[str]:
    """The names that the library lists: each behind 4 bytes of an id and 1 for its length."""
    at = 0
    while at < len(text):
        end = at + 5 + text[at + 4]
        yield text[at + 5:end].decode()
        at = end
