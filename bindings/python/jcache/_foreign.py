"""The functions of `jcache.h` by ctypes. The shared object is JCACHE_LIBRARY, or libjcache.so beside this file, or
libjcache.so where the linker finds it."""

import ctypes
import os
import threading
from typing import Any, Dict, List, Optional, Tuple, Union

_U8, _U32, _U64, _SIZE = ctypes.c_uint8, ctypes.c_uint32, ctypes.c_uint64, ctypes.c_size_t
_DONE, _FOUND, _LISTED, _SHORT_BUFFER = 0, 3, 5, 73
_MAJOR, _ROOM = 0, 1 << 17


class _Manager(ctypes.Structure):
    _fields_ = [("at", ctypes.c_void_p)]


class _Settings(ctypes.Structure):
    _fields_ = [("duration", _U64), ("capacity", _U32), ("policy", _U32), ("loader", _U8), ("writer", _U8),
                ("listeners", _U8), ("max_value", _U32), ("reserved", _U64)]


_BYTES: List[Any] = [ctypes.c_char_p, _SIZE]
_MANY: List[Any] = [ctypes.c_char_p, _SIZE] + _BYTES
_OUT: List[Any] = [ctypes.c_char_p, _SIZE, ctypes.POINTER(_SIZE)]
_AT: List[Any] = [_U32, _U64]
_SHAPES: Dict[str, List[Any]] = {
    "open": [_U64], "open_secret": [ctypes.c_char_p], "close": [], "destroy": [_U32],
    "find": [*_BYTES, ctypes.POINTER(_U32)],
    "create": [*_BYTES, ctypes.POINTER(_Settings), *_BYTES, ctypes.POINTER(_U32)],
    "get_into": [*_AT, *_BYTES, *_OUT], "contains": [*_AT, *_BYTES], "remove": [*_AT, *_BYTES],
    "get_and_remove": [*_AT, *_BYTES], "put": [*_AT, *_BYTES, *_BYTES], "get_and_put": [*_AT, *_BYTES, *_BYTES],
    "put_if_absent": [*_AT, *_BYTES, *_BYTES], "replace": [*_AT, *_BYTES, *_BYTES],
    "get_and_replace": [*_AT, *_BYTES, *_BYTES], "replace_if": [*_AT, *_BYTES, *_BYTES, *_BYTES],
    "remove_if": [*_AT, *_BYTES, *_BYTES], "invoke": [*_AT, *_BYTES, _U8, *_BYTES], "get_all": [*_AT, *_MANY],
    "put_all": [*_AT, *_MANY], "remove_keys": [*_AT, *_MANY], "load_all": [*_AT, *_MANY, _U32],
    "invoke_all": [*_AT, *_MANY, _U8, *_BYTES], "remove_all": _AT, "clear": _AT, "entries": _AT, "stats": _AT,
    "clear_stats": _AT, "loaded": [_U32, *_BYTES], "loaded_nothing": [_U32], "load_failed": [_U32], "written": [_U32],
    "write_failed": [_U32], "processed": [_U32, _U32, *_BYTES, _U32, *_BYTES], "process_failed": [_U32],
    "told": [_U32], "give_up": [_U32], "items": [_U32, ctypes.POINTER(_SIZE)], "key": [_U32, _SIZE, *_OUT],
    "value": [_U32, _SIZE, *_OUT], "before": [_U32, _SIZE, *_OUT], "number": [_U32, _SIZE, ctypes.POINTER(_U64)],
    "peek": [*_AT, *_BYTES, ctypes.POINTER(_U64), *_OUT], "rows": [_U32, ctypes.POINTER(_SIZE)],
    "bytes": [_U32, ctypes.POINTER(_U64)],
    "walk": [_U32, _U32, *_OUT, ctypes.POINTER(_U32)], "save": [_U32, *_OUT], "names": _OUT,
    "restore": [*_BYTES, *_BYTES, _U32, ctypes.POINTER(_U32), ctypes.POINTER(_SIZE)],
    "settings_of": [_U32, ctypes.POINTER(_Settings), *_OUT],
}
_LIMITS = {_U8: 1 << 8, _U32: 1 << 32, _U64: 1 << 64}


def _opened() -> ctypes.CDLL:
    beside = os.path.join(os.path.dirname(os.path.abspath(__file__)), "libjcache.so")
    library = ctypes.CDLL(os.environ.get("JCACHE_LIBRARY") or (beside if os.path.exists(beside) else "libjcache.so"))
    if library.jc_version() // 10_000 != _MAJOR:
        raise ImportError("the library's version is %d" % library.jc_version())
    for name, shape in _SHAPES.items():
        function = getattr(library, "jc_" + name)
        function.argtypes, function.restype = [ctypes.POINTER(_Manager), *shape], _U32
    return library


def version() -> int:
    """The library's version."""
    return int(_opened().jc_version())


def _text(key: str) -> Tuple[bytes, int]:
    return _bytes(key.encode())


def _bytes(value: bytes) -> Tuple[bytes, int]:
    if not isinstance(value, bytes):
        raise TypeError("a value is bytes, not %s" % type(value).__name__)
    return value, len(value)


def _many(lengths: bytes, keys: bytes, words: int = 1) -> Tuple[bytes, int, bytes, int]:
    return lengths, len(lengths) // (4 * words), keys, len(keys)


class Handle:
    """A handle, with a lock that is held for each call."""

    def __init__(self) -> None:
        self._library, self._manager, self._lock = _opened(), _Manager(None), threading.RLock()
        self._out = ctypes.create_string_buffer(_ROOM)

    def __del__(self) -> None:
        if getattr(self, "_manager", None) is not None and self._manager.at:
            self._library.jc_close(self._manager)

    def _ask(self, name: str, *arguments: object) -> int:
        for given, shape in zip(arguments, _SHAPES[name]):
            if isinstance(given, int) and not 0 <= given < _LIMITS.get(shape, 1 << 64):
                raise OverflowError("%d is out of range" % given)
        with self._lock:
            return int(getattr(self._library, "jc_" + name)(self._manager, *arguments))

    def _taken(self, length: ctypes.c_size_t) -> bytes:
        return ctypes.string_at(self._out, length.value)

    def open(self, seed: int) -> int:
        return self._ask("open", seed)

    def open_secret(self, secret: bytes) -> int:
        if len(secret) != 16:
            raise ValueError("a secret has 16 bytes")
        return self._ask("open_secret", secret)

    def close(self) -> int:
        return self._ask("close")

    def create(self, name: str, capacity: int, policy: int, duration: int, loader: bool, writer: bool, listeners: int,
               max_value: int, wants: bytes) -> Tuple[int, int]:
        if not (0 <= capacity < 1 << 32 and 0 <= duration < 1 << 64 and 0 <= max_value < 1 << 32):
            raise OverflowError("a number is out of range")
        settings, made = _Settings(duration, capacity, policy, loader, writer, listeners, max_value), _U32()
        return self._ask("create", *_text(name), settings, *_bytes(wants), made), made.value

    def destroy(self, cache: int) -> int:
        return self._ask("destroy", cache)

    def find(self, name: str) -> Tuple[int, int]:
        found = _U32()
        return self._ask("find", *_text(name), found), found.value

    def names(self) -> Union[bytes, int]:
        length = _SIZE()
        with self._lock:
            status = self._ask("names", self._out, _ROOM, length)
            return self._taken(length) if status == _DONE else status

    def settings(self, cache: int) -> Tuple[int, int, int, int, Tuple[int, int, int], bytes]:
        found, length = _Settings(), _SIZE()
        with self._lock:
            status = self._ask("settings_of", cache, found, self._out, _ROOM, length)
            hooks = (found.loader, found.writer, found.listeners)
            return status, found.capacity, found.policy, found.duration, hooks, self._taken(length)

    def save(self, cache: int) -> Union[bytes, int]:
        length = _SIZE()
        with self._lock:
            status = self._ask("save", cache, self._out, _ROOM, length)
            if status != _SHORT_BUFFER:
                return self._taken(length) if status == _DONE else status
            saved = ctypes.create_string_buffer(length.value)
            self._ask("save", cache, saved, length.value, length)
            return saved.raw

    def restore(self, name: str, saved: bytes, max_value: int) -> Tuple[int, int, int]:
        made, place = _U32(), _SIZE()
        status = self._ask("restore", *_text(name), *_bytes(saved), max_value, made, place)
        return status, made.value, place.value

    def get(self, cache: int, now: int, key: str) -> Union[bytes, int]:
        length = _SIZE()
        with self._lock:
            status = self._ask("get_into", cache, now, *_text(key), self._out, _ROOM, length)
            return self._taken(length) if status == _FOUND else status

    def contains(self, cache: int, now: int, key: str) -> int:
        return self._ask("contains", cache, now, *_text(key))

    def remove(self, cache: int, now: int, key: str) -> int:
        return self._ask("remove", cache, now, *_text(key))

    def get_and_remove(self, cache: int, now: int, key: str) -> int:
        return self._ask("get_and_remove", cache, now, *_text(key))

    def put(self, cache: int, now: int, key: str, value: bytes) -> int:
        return self._ask("put", cache, now, *_text(key), *_bytes(value))

    def get_and_put(self, cache: int, now: int, key: str, value: bytes) -> int:
        return self._ask("get_and_put", cache, now, *_text(key), *_bytes(value))

    def put_if_absent(self, cache: int, now: int, key: str, value: bytes) -> int:
        return self._ask("put_if_absent", cache, now, *_text(key), *_bytes(value))

    def replace(self, cache: int, now: int, key: str, value: bytes) -> int:
        return self._ask("replace", cache, now, *_text(key), *_bytes(value))

    def get_and_replace(self, cache: int, now: int, key: str, value: bytes) -> int:
        return self._ask("get_and_replace", cache, now, *_text(key), *_bytes(value))

    def remove_if(self, cache: int, now: int, key: str, expected: bytes) -> int:
        return self._ask("remove_if", cache, now, *_text(key), *_bytes(expected))

    def replace_if(self, cache: int, now: int, key: str, expected: bytes, value: bytes) -> int:
        return self._ask("replace_if", cache, now, *_text(key), *_bytes(expected), *_bytes(value))

    def invoke(self, cache: int, now: int, key: str, processor: int) -> int:
        return self._ask("invoke", cache, now, *_text(key), processor, b"", 0)

    def get_all(self, cache: int, now: int, lengths: bytes, keys: bytes) -> int:
        return self._ask("get_all", cache, now, *_many(lengths, keys))

    def put_all(self, cache: int, now: int, lengths: bytes, pairs: bytes) -> int:
        return self._ask("put_all", cache, now, *_many(lengths, pairs, 2))

    def remove_keys(self, cache: int, now: int, lengths: bytes, keys: bytes) -> int:
        return self._ask("remove_keys", cache, now, *_many(lengths, keys))

    def load_all(self, cache: int, now: int, lengths: bytes, keys: bytes, replace: bool) -> int:
        return self._ask("load_all", cache, now, *_many(lengths, keys), replace)

    def invoke_all(self, cache: int, now: int, lengths: bytes, keys: bytes, processor: int) -> int:
        return self._ask("invoke_all", cache, now, *_many(lengths, keys), processor, b"", 0)

    def remove_all(self, cache: int, now: int) -> int:
        return self._ask("remove_all", cache, now)

    def clear(self, cache: int, now: int) -> int:
        return self._ask("clear", cache, now)

    def entries(self, cache: int, now: int) -> int:
        return self._ask("entries", cache, now)

    def stats(self, cache: int, now: int) -> int:
        return self._ask("stats", cache, now)

    def clear_stats(self, cache: int, now: int) -> int:
        return self._ask("clear_stats", cache, now)

    def loaded(self, cache: int, value: bytes) -> int:
        return self._ask("loaded", cache, *_bytes(value))

    def loaded_nothing(self, cache: int) -> int:
        return self._ask("loaded_nothing", cache)

    def load_failed(self, cache: int) -> int:
        return self._ask("load_failed", cache)

    def written(self, cache: int) -> int:
        return self._ask("written", cache)

    def write_failed(self, cache: int) -> int:
        return self._ask("write_failed", cache)

    def processed(self, cache: int, action: int, value: bytes) -> int:
        return self._ask("processed", cache, action, *_bytes(value), 0, b"", 0)

    def process_failed(self, cache: int) -> int:
        return self._ask("process_failed", cache)

    def told(self, cache: int) -> int:
        return self._ask("told", cache)

    def give_up(self, cache: int) -> int:
        return self._ask("give_up", cache)

    def shown(self, cache: int) -> List[Tuple[str, Optional[bytes], Optional[bytes]]]:
        count = _SIZE()
        with self._lock:
            self._ask("items", cache, count)
            return [((self._part("key", cache, item) or b"").decode(), self._part("value", cache, item),
                     self._part("before", cache, item)) for item in range(count.value)]

    def _part(self, part: str, cache: int, item: int) -> Optional[bytes]:
        length = _SIZE()
        status = self._ask(part, cache, item, self._out, _ROOM, length)
        return self._taken(length) if status == _DONE else None

    def numbers(self, cache: int) -> List[int]:
        found: List[int] = []
        number = _U64()
        with self._lock:
            while self._ask("number", cache, len(found), number) == _DONE:
                found.append(number.value)
        return found

    def peek(self, cache: int, now: int, key: str) -> Union[Tuple[bytes, int], int]:
        length, expires = _SIZE(), _U64()
        with self._lock:
            status = self._ask("peek", cache, now, *_text(key), expires, self._out, _ROOM, length)
            return (self._taken(length), expires.value) if status == _FOUND else status

    def rows(self, cache: int) -> Tuple[int, int]:
        rows = _SIZE()
        return self._ask("rows", cache, rows), rows.value

    def byte_count(self, cache: int) -> Tuple[int, int]:
        found = _U64()
        return self._ask("bytes", cache, found), found.value

    def walk(self, cache: int, first: int) -> Union[Tuple[bytes, int], int]:
        length, following = _SIZE(), _U32()
        with self._lock:
            status = self._ask("walk", cache, first, self._out, _ROOM, length, following)
            return (self._taken(length), following.value) if status == _LISTED else status
