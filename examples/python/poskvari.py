"""MQTT 3.1.1 from the library libposkvari, by ctypes.

`Client` is a client without a socket: it takes received bytes and gives bytes to send, and the
caller passes the time. `packet` finds the packet at the front of bytes. `encode_connect` and others
encode packets. `matches` tests a topic filter against a topic name.

The library is libposkvari.so in the folder that the variable POSKVARI_LIB names, or else in a
folder of the system.
"""

from __future__ import annotations

import ctypes
import os
import time
from collections.abc import Iterator
from dataclasses import dataclass
from types import TracebackType

_TEXTS = {
    -1: "out of memory",
    -2: "an argument is not valid",
    -3: "the buffer is too small",
    -4: "the packet is over the limit",
    -5: "the bytes are not an MQTT string",
    -6: "the text is not a topic name",
    -7: "the text is not a topic filter",
    -8: "the bytes are not a saved session",
    -9: "the bytes are not a packet",
    -10: "not connected",
    -11: "no packet identifier is free",
    -12: "events are pending",
    -13: "the session belongs to another client",
}
_ROOM = -3


class Error(Exception):
    """An error of the library, with its code."""

    def __init__(self, code: int) -> None:
        super().__init__(_TEXTS.get(code, f"error {code}"))
        self.code = code


class Closed(Exception):
    """The client closed its end. `reason` is a number of enum posk_close in poskvari.h, `events`
    are those that came before."""

    def __init__(self, reason: int, events: list[Event]) -> None:
        super().__init__(f"closed for reason {reason}")
        self.reason = reason
        self.events = events


@dataclass(frozen=True)
class Connected:
    """The server accepted the connection."""

    session_present: bool


@dataclass(frozen=True)
class Message:
    """A message of a PUBLISH or a will, or one that the server delivered."""

    topic: str
    payload: bytes
    qos: int
    retain: bool


@dataclass(frozen=True)
class Subscribed:
    """The response to a SUBSCRIBE: a granted quality of service, or 128 for a refusal."""

    id: int
    code: int


@dataclass(frozen=True)
class Unsubscribed:
    """The response to an UNSUBSCRIBE."""

    id: int


@dataclass(frozen=True)
class Pong:
    """The response to a PINGREQ."""


Event = Connected | Message | Subscribed | Unsubscribed | Pong


class _Field(ctypes.Structure):
    _fields_ = [("at", ctypes.c_size_t), ("size", ctypes.c_size_t)]


class Fields(ctypes.Structure):
    """A packet in bytes, as struct posk_fields of poskvari.h."""

    _fields_ = [
        ("kind", ctypes.c_uint8),
        ("qos", ctypes.c_uint8),
        ("retain", ctypes.c_bool),
        ("dup", ctypes.c_bool),
        ("clean_session", ctypes.c_bool),
        ("has_will", ctypes.c_bool),
        ("has_user_name", ctypes.c_bool),
        ("has_password", ctypes.c_bool),
        ("session_present", ctypes.c_bool),
        ("code", ctypes.c_uint8),
        ("id", ctypes.c_uint16),
        ("keep_alive", ctypes.c_uint16),
        ("size", ctypes.c_size_t),
        ("topic", _Field),
        ("payload", _Field),
        ("list", _Field),
        ("client_id", _Field),
        ("user_name", _Field),
        ("password", _Field),
    ]


class _Fault(ctypes.Structure):
    _fields_ = [("place", ctypes.c_size_t), ("kind", ctypes.c_uint8)]


class _Event(ctypes.Structure):
    _fields_ = [
        ("kind", ctypes.c_uint8),
        ("qos", ctypes.c_uint8),
        ("retain", ctypes.c_bool),
        ("session_present", ctypes.c_bool),
        ("id", ctypes.c_uint16),
        ("topic_size", ctypes.c_size_t),
        ("size", ctypes.c_size_t),
    ]


class _Handle(ctypes.Structure):
    _fields_ = [("at", ctypes.c_void_p)]


_BYTES = [ctypes.c_char_p, ctypes.c_size_t]
_CLIENT = ctypes.POINTER(_Handle)
_I32, _U64, _SIZE = ctypes.c_int32, ctypes.c_uint64, ctypes.c_ssize_t
_U8, _U16, _BOOL = ctypes.c_uint8, ctypes.c_uint16, ctypes.c_bool
_FUNCTIONS = {
    "packet": (
        _I32,
        [*_BYTES, ctypes.c_uint32, _BOOL, ctypes.POINTER(Fields), ctypes.POINTER(_Fault)],
    ),
    "match": (_I32, [*_BYTES, *_BYTES]),
    "encode_acknowledgement": (_SIZE, [_U8, _U16, *_BYTES]),
    "encode_bare": (_SIZE, [_U8, *_BYTES]),
    "encode_list": (_SIZE, [_U8, _U16, *_BYTES, *_BYTES]),
    "encode_connack": (_SIZE, [_BOOL, _U8, *_BYTES]),
    "encode_publish": (_SIZE, [*_BYTES, *_BYTES, _U8, _BOOL, _BOOL, _U16, *_BYTES]),
    "encode_connect": (
        _SIZE,
        [*_BYTES, _U16, _BOOL, _BOOL, *_BYTES, _BOOL, *_BYTES]
        + [_BOOL, *_BYTES, *_BYTES, _U8, _BOOL, *_BYTES],
    ),
    "client_new": (
        _I32,
        [*_BYTES, _U16, ctypes.c_uint32, _U16, _U16, _BOOL, *_BYTES, _BOOL, *_BYTES]
        + [_BOOL, *_BYTES, *_BYTES, _U8, _BOOL, *_BYTES, _CLIENT],
    ),
    "client_free": (None, [_CLIENT]),
    "client_connect": (_I32, [_CLIENT, _U64, _BOOL]),
    "client_receive": (_I32, [_CLIENT, _U64, *_BYTES]),
    "client_output": (ctypes.c_size_t, [_CLIENT, *_BYTES]),
    "client_publish": (_I32, [_CLIENT, *_BYTES, *_BYTES, _U8, _BOOL]),
    "client_subscribe": (_I32, [_CLIENT, *_BYTES, _U8]),
    "client_unsubscribe": (_I32, [_CLIENT, *_BYTES]),
    "client_next_event": (_I32, [_CLIENT, ctypes.POINTER(_Event), *_BYTES]),
    "client_tick": (_I32, [_CLIENT, _U64]),
    "client_next_deadline": (_U64, [_CLIENT]),
    "client_dropped": (None, [_CLIENT]),
    "client_disconnect": (_I32, [_CLIENT]),
    "client_save": (_SIZE, [_CLIENT, *_BYTES]),
    "client_is_idle": (_BOOL, [_CLIENT]),
}


def _load() -> ctypes.CDLL:
    folder = os.environ.get("POSKVARI_LIB")
    library = ctypes.CDLL(os.path.join(folder, "libposkvari.so") if folder else "libposkvari.so")
    for name, (result, parameters) in _FUNCTIONS.items():
        function = getattr(library, f"poskvari_{name}")
        function.restype, function.argtypes = result, parameters
    return library


_LIBRARY = _load()


def _call(name: str, *words: object) -> int:
    """Calls a function whose negative results are errors."""
    code: int = getattr(_LIBRARY, f"poskvari_{name}")(*words)
    if code < 0:
        raise Error(code)
    return code


def _within(name: str, number: int, most: int) -> int:
    """Tests a number, since ctypes cuts one that is too great."""
    if not 0 <= number <= most:
        raise ValueError(f"{name} must be from 0 to {most}")
    return number


def now() -> int:
    """The time in milliseconds."""
    return time.monotonic_ns() // 1_000_000


def packet(data: bytes, max_packet: int = 268_435_455) -> Fields | None:
    """Returns the packet at the front of the bytes, or None if it is incomplete."""
    fields, fault = Fields(), _Fault()
    most = _within("max_packet", max_packet, 268_435_455)
    words = (data, len(data), most, False, ctypes.byref(fields), ctypes.byref(fault))
    return None if _call("packet", *words) else fields


def matches(topic_filter: str, topic: str) -> bool:
    """Returns whether a topic filter matches a topic name."""
    left, right = topic_filter.encode(), topic.encode()
    return _call("match", left, len(left), right, len(right)) == 1


def _encode(name: str, most: int, *words: object) -> bytes:
    """Returns the packet that a function encodes, which has at most `most` bytes."""
    room = ctypes.create_string_buffer(most)
    size = _call(f"encode_{name}", *words, room, most)
    return room.raw[:size]


def encode_acknowledgement(kind: int, packet_id: int) -> bytes:
    """Encodes PUBACK (4), PUBREC (5), PUBREL (6), PUBCOMP (7) or UNSUBACK (11)."""
    return _encode("acknowledgement", 4, _within("kind", kind, 255), _id(packet_id))


def encode_bare(kind: int) -> bytes:
    """Encodes PINGREQ (12), PINGRESP (13) or DISCONNECT (14)."""
    return _encode("bare", 2, _within("kind", kind, 255))


def encode_subscribe(packet_id: int, filters: list[tuple[str, int]]) -> bytes:
    """Encodes SUBSCRIBE of these topic filters, each with its quality of service."""
    items = b"".join(_counted(it) + bytes([_within("qos", qos, 255)]) for it, qos in filters)
    return _encode_list(8, packet_id, items)


def encode_suback(packet_id: int, codes: bytes) -> bytes:
    """Encodes SUBACK with these return codes."""
    return _encode_list(9, packet_id, codes)


def encode_unsubscribe(packet_id: int, filters: list[str]) -> bytes:
    """Encodes UNSUBSCRIBE of these topic filters."""
    return _encode_list(10, packet_id, b"".join(_counted(it) for it in filters))


def encode_connack(session_present: bool, code: int) -> bytes:
    """Encodes CONNACK."""
    return _encode("connack", 4, session_present, _within("code", code, 255))


def encode_connect(
    client_id: str,
    *,
    keep_alive: int = 60,
    clean: bool = True,
    user_name: str | None = None,
    password: bytes | None = None,
    will: Message | None = None,
) -> bytes:
    """Encodes CONNECT."""
    data = client_id.encode()
    login, last = _login(user_name, password), _will(will)
    parts = [data, login[1], login[4], last[1], last[3]]
    return _encode(
        "connect",
        sum(len(it) for it in parts) + 25,
        *(data, len(data), _within("keep_alive", keep_alive, 65_535), clean, *login, *last),
    )


def _login(user_name: str | None, password: bytes | None) -> tuple:
    name, secret = (user_name or "").encode(), password or b""
    return user_name is not None, name, len(name), password is not None, secret, len(secret)


def _will(will: Message | None) -> tuple:
    topic, payload = (will.topic.encode(), will.payload) if will else (b"", b"")
    qos = _within("qos", will.qos, 255) if will else 0
    retain = will is not None and will.retain
    return will is not None, topic, len(topic), payload, len(payload), qos, retain


def encode_publish(message: Message, packet_id: int = 0, dup: bool = False) -> bytes:
    """Encodes PUBLISH, with a packet identifier for quality of service 1 and 2."""
    topic, payload = message.topic.encode(), message.payload
    return _encode(
        "publish",
        len(topic) + len(payload) + 9,
        *(topic, len(topic), payload, len(payload)),
        *(_within("qos", message.qos, 255), message.retain, dup, _id(packet_id)),
    )


def _encode_list(kind: int, packet_id: int, items: bytes) -> bytes:
    return _encode("list", len(items) + 7, kind, _id(packet_id), items, len(items))


def _id(packet_id: int) -> int:
    return _within("packet_id", packet_id, 65_535)


def _counted(text: str) -> bytes:
    data = text.encode()
    return _within("the size of a filter", len(data), 65_535).to_bytes(2, "big") + data


class Client:
    """A client's end of its connections, with its session. Use it in one thread, as a context
    manager or with `close`."""

    def __init__(
        self,
        client_id: str,
        *,
        keep_alive: int = 60,
        max_packet: int = 1_048_576,
        capacity: int = 1_000,
        window: int = 0,
        user_name: str | None = None,
        password: bytes | None = None,
        will: Message | None = None,
        saved: bytes = b"",
    ) -> None:
        self._handle = _Handle()
        self._room = ctypes.create_string_buffer(65_536)
        data = client_id.encode()
        _call(
            "client_new",
            *(data, len(data)),
            _within("keep_alive", keep_alive, 65_535),
            _within("max_packet", max_packet, 268_435_455),
            _within("capacity", capacity, 65_535),
            _within("window", window, 65_535),
            *_login(user_name, password),
            *_will(will),
            *(saved, len(saved)),
            ctypes.byref(self._handle),
        )

    def __enter__(self) -> Client:
        return self

    def __exit__(
        self,
        kind: type[BaseException] | None,
        error: BaseException | None,
        trace: TracebackType | None,
    ) -> None:
        self.close()

    def __del__(self) -> None:
        if getattr(self, "_handle", None):
            self.close()

    def close(self) -> None:
        """Frees the client. Other methods must not be called any more."""
        if self._handle.at:
            _LIBRARY.poskvari_client_free(ctypes.byref(self._handle))

    def _client(self) -> object:
        if not self._handle.at:
            raise ValueError("the client is closed")
        return ctypes.byref(self._handle)

    def connect(self, clean: bool = False) -> None:
        """Begins a connection. `clean` discards the session."""
        _call("client_connect", self._client(), now(), clean)

    def receive(self, data: bytes) -> list[Event]:
        """Processes received bytes, and returns the events. Raises `Closed` if the end closed."""
        closed = _call("client_receive", self._client(), now(), data, len(data))
        events = list(self._events())
        if closed:
            raise Closed(closed, events)
        return events

    def _events(self) -> Iterator[Event]:
        event = _Event()
        while True:
            words = (ctypes.byref(event), self._room, len(self._room))
            code = _LIBRARY.poskvari_client_next_event(self._client(), *words)
            if code == _ROOM:
                self._room = ctypes.create_string_buffer(event.size)
            elif code < 0:
                raise Error(code)
            elif event.kind == 0:
                return
            else:
                yield self._event(event)

    def _event(self, event: _Event) -> Event:
        data = self._room.raw[: event.size]
        if event.kind == 1:
            return Connected(event.session_present)
        if event.kind == 2:
            topic, payload = data[: event.topic_size], data[event.topic_size :]
            return Message(topic.decode(), payload, event.qos, event.retain)
        if event.kind == 3:
            return Subscribed(event.id, data[0])
        return Unsubscribed(event.id) if event.kind == 4 else Pong()

    def output(self) -> bytes:
        """Returns the bytes that must be sent now."""
        parts = []
        while size := _LIBRARY.poskvari_client_output(self._client(), self._room, len(self._room)):
            parts.append(self._room.raw[:size])
        return b"".join(parts)

    def publish(self, topic: str, payload: bytes, qos: int = 0, retain: bool = False) -> int:
        """Publishes a message. Returns its packet identifier, or 0 with quality of service 0."""
        data = topic.encode()
        words = (data, len(data), payload, len(payload), _within("qos", qos, 2), retain)
        return _call("client_publish", self._client(), *words)

    def subscribe(self, topic_filter: str, qos: int = 0) -> int:
        """Subscribes to a topic filter. Returns the packet identifier."""
        data = topic_filter.encode()
        return _call("client_subscribe", self._client(), data, len(data), _within("qos", qos, 2))

    def unsubscribe(self, topic_filter: str) -> int:
        """Unsubscribes from a topic filter. Returns the packet identifier."""
        data = topic_filter.encode()
        return _call("client_unsubscribe", self._client(), data, len(data))

    def tick(self) -> None:
        """Queues a PINGREQ if it is due. Call it at `next_deadline`."""
        _call("client_tick", self._client(), now())

    def next_deadline(self) -> int | None:
        """The time from which `tick` does something."""
        deadline: int = _LIBRARY.poskvari_client_next_deadline(self._client())
        return None if deadline == 2**64 - 1 else deadline

    def dropped(self) -> None:
        """Reports that the connection is lost."""
        _LIBRARY.poskvari_client_dropped(self._client())

    def disconnect(self) -> None:
        """Queues DISCONNECT, and closes the end."""
        _call("client_disconnect", self._client())

    def is_idle(self) -> bool:
        """Whether each message that was published with QoS 1 or 2 is acknowledged."""
        return bool(_LIBRARY.poskvari_client_is_idle(self._client()))

    def save(self) -> bytes:
        """Returns the session, which the parameter `saved` continues."""
        while True:
            words = (self._client(), self._room, len(self._room))
            size: int = _LIBRARY.poskvari_client_save(*words)
            if size >= 0:
                return self._room.raw[:size]
            if size != _ROOM:
                raise Error(size)
            self._room = ctypes.create_string_buffer(2 * len(self._room))
