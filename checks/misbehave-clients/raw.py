"""A client by frames: one that does right, or something wrong on purpose, or not what the case needs, or something lawful that few
clients do; whatever the server does. The tables below say which deed is tried with which misbehaviour, and what is to be said
of it.

What it does follows what comes, and no deed rests on how long something takes: what has to be seen together is sent together, and
its side stays open until the server's run is over, unless leaving is the deed."""
import socket
import struct
import time

import wire

LIMIT = 70
CONNECTION_ERRORS = {"hpack_index_0": 9, "block_cut_by_data": 1}
STREAM_ERRORS = {"trailers_without_end_stream": 1, "upper_case_head": 1, "frame_too_long": 6}
LARGE = ("window_1", "window_0", "window_below_zero")
MANY = ("max_streams",)
TWICE = ("table_size_0",)
CLOSED = ("closed_before_the_call", "closed_after_the_request_head", "closed_after_the_request", "closed_after_the_head",
          "closed_in_a_frame", "closed_before_the_trailers")

# How many PINGs come up to the last one after the last step: two, or four where two come before the end of the response.
LAST_PING = {"upper_case_head": 4, "frame_too_long": 4}

# What is sent at once after the first call, by deed.
SENT = {
    "long frame": wire.frame(wire.DATA, 0, 1, bytes(16_385)),
    "short ping": wire.frame(wire.PING, 0, 0, bytes(7)),
    "padding": wire.frame(wire.DATA, wire.PADDED, 1, b"\x05"),
    "stream 0": wire.frame(wire.DATA, 0, 0, b"x"),
    "no increment": wire.credit(0, 0),
    "push": wire.frame(wire.PUSH_PROMISE, wire.END_HEADERS, 1, bytes(4)),
    "continuation": wire.frame(wire.CONTINUATION, wire.END_HEADERS, 1, b"\x88"),
    "cut block": wire.frame(wire.HEADERS, 0, 3, b"\x88") + wire.ping(7),
    "bad block": wire.frame(wire.HEADERS, wire.END_HEADERS, 3, b"\x80"),
    "bad setting": wire.settings((2, 2)),
    "wide window": wire.credit(0, 0x7FFFFFFF),
    "even stream": wire.open_call(2, "UnaryCall"),
    "idle stream": wire.data(9, b"x"),
    "goes back": wire.open_call(7, "UnaryCall") + wire.open_call(5, "UnaryCall"),
}

# What a client that does this is told: the reason, and the rule's section.
NO_PONG = ("silence", "it didn't answer a PING within 10 seconds", "RFC 9113, 6.7")
NO_ACK = ("no ack", "it didn't acknowledge SETTINGS within 10 seconds", "RFC 9113, 6.5.3")
OTHER_PONG = ("other pong", "it answered a PING with other bytes than the PING's", "RFC 9113, 6.7")
AFTER_RESET = ("frame", "it sent a frame on a stream after a RST_STREAM that it had read", "RFC 9113, 6.4")
AFTER_GOAWAY = ("second call", "it opened a stream after a GOAWAY that it had read", "RFC 9113, 6.8")
PAST_WINDOW = ("flood", "it sent DATA past a window", "RFC 9113, 6.9.1")
KEPT_STREAM = "it went on, and neither reset the call nor ended the connection"
KEPT_CONNECTION = ("pong", "it went on, and didn't end the connection")
# A client that has what it wanted, and says so late.
LATE = ("pongs, then goaway 0", "pongs, then reset 8")
GAVE_UP = ("reset 2", "it reset the call with INTERNAL_ERROR before its response had ended")
ENDED = ("goaway 2", "it ended the connection by GOAWAY with INTERNAL_ERROR before its response had ended")

# What a client does wrong, what is said of it, and the sentence's place.
WRONG = {
    "goaway": [AFTER_GOAWAY, (*GAVE_UP, "Descriptions\", goaway")],
    "rst_after_header": [AFTER_RESET],
    "rst_during_data": [AFTER_RESET],
    "rst_after_data": [("late reset", AFTER_RESET[1], AFTER_RESET[2])],
    "ping": [OTHER_PONG, (*GAVE_UP, "Descriptions\", ping")],
    "max_streams": [("two calls", "it had more calls open than SETTINGS_MAX_CONCURRENT_STREAMS allows", "RFC 9113, 5.1.2"), NO_ACK],
    "data_frame_padding": [
        ("no credit", "for 10 seconds the server waited for its credit for the rest of the reply, while it answered PINGs",
         "Descriptions\", data_frame_padding (RFC 9113 has no sentence for it)"),
        (*GAVE_UP, "Descriptions\", data_frame_padding (RFC 9113 has no sentence for it)"),
    ],
    "no_df_padding_sanity_test": [(*GAVE_UP, "Descriptions\", no_df_padding_sanity_test")],
    "no_grpc_status": [("long frame", "it sent a frame of over 16,384 bytes", "RFC 9113, 4.1")],
    "no_content_type": [("short ping", "it sent a frame of a length that its type doesn't have", "RFC 9113, 4.2 and 6.5")],
    "http_404": [("padding", "it sent a frame with more padding than fits it", "RFC 9113, 6.1 and 6.2")],
    "http_404_with_grpc_status": [NO_PONG],
    "http_200": [("stream 0", "it sent a frame of the connection on a stream, or one of a stream on the stream 0", "RFC 9113, 4.1, 6.5, 6.7 and 6.8")],
    "http_200_with_grpc_status": [("no increment", "it sent WINDOW_UPDATE with an increment of 0", "RFC 9113, 6.9")],
    "http_503": [("push", "it sent PUSH_PROMISE", "RFC 9113, 8.4")],
    "http_503_with_grpc_status": [
        ("continuation", "it sent CONTINUATION with no header block before it", "RFC 9113, 6.10"),
    ],
    "trailers_without_end_stream": [(deed, KEPT_STREAM, "RFC 9113, 8.1 and 8.1.1") for deed in ("pong", *LATE)],
    "upper_case_head": [(deed, KEPT_STREAM, "RFC 9113, 8.2.1 and 8.1.1")
                        for deed in ("pong", *LATE, "at the end close", "at the end goaway 0", "at the end reset 8")],
    "flag_1_without_encoding": [("cut block", "it sent another frame inside a header block", "RFC 9113, 4.3")],
    "flag_7": [("bad block", "it sent a header block that can't be read", "RFC 9113, 4.3")],
    "prefix_says_more": [
        ("bad setting", "it sent SETTINGS with a value that the parameter may not have", "RFC 9113, 6.5.2"),
    ],
    "prefix_says_less": [
        ("wide window", "it gave credit up to a window of over 2,147,483,647 bytes", "RFC 9113, 6.9.1 and 6.9.2"),
    ],
    "percent_broken": [("even stream", "it opened a stream of an even number, or the stream 0", "RFC 9113, 5.1.1")],
    "bin_not_base64": [("idle stream", "it sent DATA on a stream that it hadn't opened", "RFC 9113, 5.1")],
    "twenty_continuations": [
        ("stream 0", "it sent a frame of the connection on a stream, or one of a stream on the stream 0", "RFC 9113, 4.1, 6.5, 6.7 and 6.8"),
    ],
    "interim_heads": [(*GAVE_UP, "RFC 9110, 15.2"), (*ENDED, "RFC 9110, 15.2")],
    "data_after_trailers": [("goes back", "it opened a stream of a lower number than one before", "RFC 9113, 5.1.1")],
    "hpack_index_0": [(*KEPT_CONNECTION, "RFC 9113, 4.3"), ("reset 2", KEPT_CONNECTION[1], "RFC 9113, 4.3")],
    "block_cut_by_data": [(*KEPT_CONNECTION, "RFC 9113, 6.2")],
    "frame_too_long": [(deed, KEPT_STREAM, "RFC 9113, 4.2") for deed in ("pong", "at the end close")],
    "byte_by_byte": [NO_PONG],
    "padding_1_mib": [NO_PONG],
    "table_size_0": [("no update", "a header block didn't begin with the change of the table's size", "RFC 9113, 4.3.1")],
    "settings_unacknowledged": [NO_PONG],
    "goaway_last_0": [AFTER_GOAWAY],
    "data_past_window": [NO_PONG],
    "window_1": [PAST_WINDOW],
    "window_0": [
        PAST_WINDOW,
        ("stuck", "for 10 seconds the server waited for the rest of its request, while it answered PINGs", "RFC 9113, 6.9.1 and 6.9.2"),
    ],
    "window_below_zero": [PAST_WINDOW],
    **{name: [("no increment", "it sent WINDOW_UPDATE with an increment of 0", "RFC 9113, 6.9")] for name in CLOSED},
}

NO_CALL = ("no call", "no call came: make a call")
UNREAD = ("leave", "it ended the connection before it was seen that it had read all: ")
EARLY = ("leave", "it ended the connection before the call had ended: ")
CANCELLED = ("reset 8", "it reset the call with CANCEL, maybe of its own accord: ")
SHORT_REQUEST = ("short", "the request fitted the window: ")
SHORT_REPLY = ("short", "the request asks for a reply of less than a window: ")
# What no sentence forbids, and what shows nothing.
DECLINED = [
    ("reset 2", "it reset the call with INTERNAL_ERROR before its response had ended, which no sentence forbids: "),
    ("goaway 1", "it ended the connection by GOAWAY with PROTOCOL_ERROR before its response had ended, which no sentence forbids: "),
]
# It read what was wrong, went on, and ended what it had; that may be for that, or since it had what it wanted.
UNCLEAR = [
    ("pong, then close", "it ended the connection after it had read that, maybe since it had what it wanted: "),
    ("pong, then goaway 0", "it ended the connection by GOAWAY with NO_ERROR, maybe of its own accord: "),
]
UNCLEAR_RESET = ("pong, then reset 8", "it reset the call with CANCEL, maybe of its own accord: ")

# What a client does that isn't what the case needs, and how what is said of it begins.
LACKING = {
    "goaway": [NO_CALL, ("one call", "no call came after the GOAWAY on another connection: "), CANCELLED],
    "rst_after_header": [NO_CALL, UNREAD],
    "rst_during_data": [NO_CALL],
    "rst_after_data": [NO_CALL],
    "ping": [NO_CALL, EARLY],
    "max_streams": [("no call", "no call came"), ("in turn", "no two of its calls were open at once"),
                    ("one call", "the server waited in vain for a second call")],
    "data_frame_padding": [NO_CALL, SHORT_REPLY],
    "no_df_padding_sanity_test": [NO_CALL, SHORT_REPLY],
    "interim_heads": [NO_CALL, EARLY, CANCELLED],
    "trailers_without_end_stream": [NO_CALL, *UNCLEAR, UNCLEAR_RESET],
    "upper_case_head": [
        NO_CALL, *UNCLEAR, UNCLEAR_RESET,
    ],
    "hpack_index_0": [NO_CALL, *UNCLEAR],
    "block_cut_by_data": [NO_CALL, *UNCLEAR],
    "frame_too_long": [NO_CALL, ("long frames", "no frame is too long for the client"), *UNCLEAR, UNCLEAR_RESET],
    "twenty_continuations": [NO_CALL, *DECLINED],
    "padding_1_mib": [NO_CALL, *DECLINED, ("no credit", "the server waited in vain for its credit for the rest of the reply")],
    "byte_by_byte": [NO_CALL, *DECLINED, ("no credit", "the server waited in vain for its credit for the rest of the reply")],
    "table_size_0": [NO_CALL, ("one call", "the server waited in vain for a second call"),
                     ("no entry", "its header blocks add no entry to the dynamic table")],
    "goaway_last_0": [NO_CALL, ("one call", "no call came after the GOAWAY on another connection: ")],
    "data_past_window": [NO_CALL, ("wide", "the client's windows are over 15 MB")],
    "window_1": [NO_CALL, SHORT_REQUEST, *DECLINED],
    "window_0": [NO_CALL, SHORT_REQUEST, *DECLINED],
    "window_below_zero": [NO_CALL, SHORT_REQUEST, *DECLINED],
    "http_404": [NO_CALL, ("endless", "the server waited in vain for the rest of its request"),
                 ("tls", "what came doesn't begin with HTTP/2's preface: "), ("nobody", "no connection came: "),
                 ("slow preface", "no call came: "), ("slow request", "the server waited in vain for the rest of its request")],
    **{name: [("stay", "nothing shows that it noticed the end of the connection: ")] for name in CLOSED},
}

# What few clients do, and what no sentence forbids.
LAWFUL = {
    "trailers_without_end_stream": ["reset 1", "reset 2", "goaway 2", "close"],
    "upper_case_head": ["reset 2", "reset 8", "goaway 1", "close", "pong, then reset 1", "pong, then goaway 2",
                        "at the end reset 1"],
    "frame_too_long": ["reset 3", "reset 1", "goaway 6", "close"],
    "hpack_index_0": ["goaway 2", "close", "reset and close"],
    "block_cut_by_data": ["goaway 1", "close", "reset and close"],
    "data_past_window": ["reset 1", "reset 3", "goaway 3"],
    "data_after_trailers": ["goaway 5", "reset 5"],
    "no_content_type": ["reset 5", "reset 1", "reset 8", "goaway 2"],
    "http_404": ["reset 5", "goaway 2", "flood of PINGs", "flood of SETTINGS", "flood of unknown frames"],
    "no_grpc_status": ["reset 5", "reset 0"],
    "settings_unacknowledged": ["goaway 4"],
    "byte_by_byte": ["at the end goaway 2"],
    "rst_after_data": ["crossing reset"],
    "closed_after_the_request": ["goaway 0"],
    "closed_before_the_trailers": ["reset 2"],
}

FLOODS = {
    "flood of PINGs": wire.ping(9),
    "flood of SETTINGS": wire.settings(),
    "flood of unknown frames": wire.frame(99, 0, 0, b"x"),
}


def words_of(content):
    return dict(struct.iter_unpack(">HI", content))


class Client:
    """A client of the server on this port. `is_over` answers whether the server's run has ended."""

    def __init__(self, port, name, deed, is_over):
        self.name, self.deed, self.is_over = name, deed, is_over
        self.peer = wire.Peer(port, LIMIT)
        self.left = self.request()
        self.initial = self.window = self.shared = wire.WINDOW
        self.allowed = 1_000
        self.calls = {}
        self.later = {"max_streams": 10, "table_size_0": 1}.get(name, 0)
        if deed in ("one call", "goaway 2"):
            self.later = 0
        self.pings = 0
        self.has_acted = False
        self.is_done = self.has_left = False
        opening = {"long frames": [(5, 16_777_215)], "wide": [(4, 0x7FFFFFFF)]}.get(deed, [])
        self.peer.send(wire.PREFACE, wire.settings(*opening))
        if deed == "wide":
            self.peer.send(wire.credit(0, 0x7FFFFFFF - wire.WINDOW))
        if deed != "no call":
            self.begin()

    def request(self):
        """The first request: long where the case is about windows, and for a long reply where it is about many frames."""
        if self.deed == "short":
            return wire.message()
        if self.name in LARGE:
            return wire.message(bytes(200_000))
        if self.name in ("data_frame_padding", "no_df_padding_sanity_test") or self.deed == "no credit":
            return wire.message(wire.number_field(2, 70_000))
        return wire.message()

    def begin(self):
        # The field becomes an entry of the dynamic table.
        entry = b"" if self.deed == "no entry" else b"\x40\x01a\x01b"
        self.open(1, b"", entry)
        self.peer.send(SENT.get(self.deed, b""))
        if self.deed == "endless":
            self.peer.send(wire.data(1, self.left[:1]))
        else:
            self.send()

    def open(self, stream, before=b"", after=b""):
        """Begins a call."""
        block = before + wire.call_block(wire.SERVICE + "UnaryCall") + after
        self.calls[stream] = "open"
        self.peer.send(wire.frame(wire.HEADERS, wire.END_HEADERS, stream, block))

    def again(self, *befores):
        """Makes calls on the connection, each with this at the beginning of its header block: first all their heads, so that they
        are open at once whatever the server does, and then their messages."""
        streams = [max(self.calls) + 2 * (at + 1) for at in range(len(befores))]
        for stream, before in zip(streams, befores):
            self.open(stream, before)
        self.peer.send(*(wire.data(stream, wire.message(), True) for stream in streams))

    def send(self):
        """Sends of the first request what the windows let through."""
        room = max(0, min(self.window, self.shared, len(self.left)))
        if room and self.left:
            piece, self.left = self.left[:room], self.left[room:]
            self.window -= room
            self.shared -= room
            for at in range(0, len(piece), wire.LARGEST):
                last = not self.left and at + wire.LARGEST >= len(piece)
                self.peer.send(wire.data(1, piece[at:at + wire.LARGEST], last))

    def make_later_calls(self):
        """Makes the later calls, as many at once as are allowed."""
        if not self.later or self.calls.get(1) != "ended":
            return
        live = sum(state == "open" for state in self.calls.values())
        room = (1 if self.deed == "in turn" else self.allowed) - live
        count = max(0, min(self.later, room))
        self.later -= count
        update = b"\x20" if self.name == "table_size_0" and self.deed in ("right", "no ack") else b""
        self.again(*[update] * count)

    def settings(self, flags, content):
        if flags & wire.ACK or self.deed == "no ack":
            return
        change = words_of(content)
        if wire.INITIAL_WINDOW in change:
            self.window += change[wire.INITIAL_WINDOW] - self.initial
            self.initial = change[wire.INITIAL_WINDOW]
        self.allowed = change.get(3, self.allowed)
        self.peer.send(wire.frame(wire.SETTINGS, wire.ACK, 0))
        if self.deed == "flood" and change.get(wire.INITIAL_WINDOW, 2) < 2:
            self.peer.send(wire.data(1, b"past the window"))
        if self.deed == "two calls" and change.get(3) == 1:
            self.again(b"", b"")

    def ping(self, flags, content):
        if flags & wire.ACK or self.deed == "silence":
            return
        self.pings += 1
        if not self.has_acted and (self.name != "ping" or self.calls.get(1) == "begun"):
            self.has_acted = True
            self.at_fault()
        if self.is_done:
            return
        self.peer.send(wire.frame(wire.PING, wire.ACK, 0, bytes(8) if self.deed == "other pong" else content))
        if self.pings == 1:
            self.act_after("pong, then ")
        if self.pings == 2:
            self.after_both_pings()
        if self.pings == LAST_PING.get(self.name, 2):
            self.act_after("pongs, then ")

    def at_fault(self):
        """What is done once the server did what is wrong, before the PING after it is answered."""
        if self.deed == "right" and self.name in STREAM_ERRORS:
            self.peer.send(wire.reset(1, STREAM_ERRORS[self.name]))
        elif self.deed == "right" and self.name in CONNECTION_ERRORS:
            self.goaway(CONNECTION_ERRORS[self.name])
        elif self.deed == "crossing reset":
            self.peer.send(wire.reset(1, 8))
        else:
            self.act(self.deed)

    def act_after(self, when):
        """Does what the deed says of this moment."""
        if self.deed.startswith(when):
            self.act(self.deed[len(when):])

    def act(self, deed):
        """Gives up the call or the connection, if this is that."""
        word, _, code = deed.partition(" ")
        if deed == "reset and close":
            self.peer.send(wire.reset(1, 2))
            self.is_done = self.has_left = True
        elif deed in ("close", "leave"):
            self.is_done = self.has_left = True
        elif word == "reset" and code.isdigit():
            self.peer.send(wire.reset(1, int(code)))
        elif word == "goaway" and code.isdigit():
            self.goaway(int(code))

    def after_both_pings(self):
        """What is done once the server knows that all before the PINGs was read: right after the second answer."""
        if self.deed == "second call":
            self.again(b"")
        if self.deed == "frame":
            self.peer.send(wire.data(1, b"late"))
        if self.deed == "late reset":
            self.peer.send(wire.reset(1, 8))

    def goaway(self, code):
        self.peer.send(wire.frame(wire.GOAWAY, 0, 0, struct.pack(">II", 0, code)))
        self.is_done = True

    def take(self, kind, flags, stream, content):
        if kind == wire.SETTINGS:
            self.settings(flags, content)
        if kind == wire.PING:
            self.ping(flags, content)
        if kind == wire.WINDOW_UPDATE:
            increment = int.from_bytes(content, "big")
            if stream == 0:
                self.shared += increment
            elif stream == 1:
                self.window += increment
        if kind == wire.HEADERS and stream == 1 and self.calls.get(1) == "open":
            self.calls[1] = "begun"
        if kind == wire.DATA and content and self.deed != "no credit":
            credits = [wire.credit(0, len(content))]
            if self.calls.get(stream) in ("open", "begun"):
                credits.append(wire.credit(stream, len(content)))
            self.peer.send(*credits)
        if kind == wire.RST_STREAM or kind in (wire.DATA, wire.HEADERS) and flags & wire.END_STREAM:
            self.calls[stream] = "ended"
            self.act_after("at the end ")
        if kind == wire.GOAWAY and self.deed in ("right", "one call") and content[:4] == bytes(4):
            self.is_done = self.has_left = True
        if self.is_done:
            return
        self.make_later_calls()
        if self.left and self.deed not in ("no call", "endless", "stuck"):
            self.send()

    def quiet(self):
        """How long nothing has to come before the client leaves. It mostly doesn't, and the server ends."""
        if self.deed == "no call":
            return 0.5
        is_through = self.pings >= 2 and not self.later and all(state == "ended" for state in self.calls.values())
        return 0.5 if is_through and self.deed in ("right", "one call", "in turn") else LIMIT

    def next(self):
        """The next frame, or None where no more comes. It raises where nothing came for a while."""
        self.peer.end = time.monotonic() + self.quiet()
        try:
            return self.peer.next()
        finally:
            # What is sent in answer has its own time.
            self.peer.end = time.monotonic() + LIMIT

    def run(self):
        """Takes all that comes, until it is done, nothing comes any more, or the server ends."""
        if self.deed in FLOODS:
            self.flood(FLOODS[self.deed])
            return
        while not self.is_done:
            try:
                found = self.next()
            except TimeoutError:
                self.has_left = True
                break
            if found is None:
                self.act(self.deed)
                break
            self.take(*found)
        self.leave()

    def flood(self, frames):
        """Sends these again and again, and takes what comes, until the server ends."""
        while not self.is_over():
            self.peer.end = time.monotonic() + LIMIT
            self.peer.send(frames * 10)
            self.peer.end = time.monotonic() + 0.01
            try:
                found = self.peer.next()
            except TimeoutError:
                continue
            if found is None:
                return
            self.peer.end = time.monotonic() + LIMIT
            self.take(*found)

    def leave(self):
        """Ends the connection. Where leaving isn't the deed, the end of what it sends is the last that the server sees of it."""
        if not self.has_left:
            if self.deed not in ("stay", "no increment"):
                self.peer.shut()
            end = time.monotonic() + LIMIT
            while not self.is_over() and time.monotonic() < end:
                time.sleep(0.05)
        self.peer.socket.close()


def stranger(port):
    """Speaks TLS."""
    peer = wire.Peer(port, LIMIT)
    peer.send(bytes.fromhex("16030100c8010000c40303") + bytes(100))
    peer.socket.settimeout(5)
    peer.read()
    peer.socket.close()


def drip(port, start, rest):
    """Sends some bytes, and then others one by one, in as many seconds as there are."""
    peer = wire.Peer(port, LIMIT)
    peer.send(start)
    for byte in rest:
        peer.send(bytes([byte]))
        time.sleep(1)
    peer.socket.close()


def call(port, name, deed, is_over):
    """Calls the server that misbehaves by this name, and does right, or does this instead. `is_over` answers whether the server's run
    has ended."""
    if deed == "nobody":
        return
    if deed == "tls":
        stranger(port)
        return
    if deed == "slow preface":
        drip(port, b"", wire.PREFACE)
        return
    if deed == "slow request":
        request = wire.frame(wire.DATA, wire.END_STREAM, 1, wire.message(bytes(20)))
        drip(port, wire.PREFACE + wire.settings() + wire.open_call(1, "UnaryCall"), request)
        return
    Client(port, name, deed, is_over).run()
    if deed == "right" and name in ("goaway", "goaway_last_0"):
        Client(port, "again", "right", is_over).run()
