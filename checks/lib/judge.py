"""A slow and plain judge of a connection that was served: by what came of its client, what was written, and the report on its calls.

What is wanted is a text as `interop parts` prints it. The rules are those of RFC 9113 (frames and streams), RFC 7541 (header blocks),
gRPC over HTTP/2 (a response is a head, messages and trailers), and of the report: a row for each call that was admitted, and an
ending that has its cause."""
import re

import wire

METHODS = ["EmptyCall", "UnaryCall", "CacheableUnaryCall", "StreamingInputCall", "StreamingOutputCall", "FullDuplexCall", "HalfDuplexCall"]
INPUT_ENDED, PEER_GOAWAY, PROTOCOL_ERROR, READ_FAILED, WRITE_FAILED, OUT_OF_MEMORY = range(1, 7)
# Behind these the writer may have stopped anywhere.
CUT = (PROTOCOL_ERROR, WRITE_FAILED, OUT_OF_MEMORY)
# SETTINGS_MAX_CONCURRENT_STREAMS and SETTINGS_MAX_HEADER_LIST_SIZE, as the server announces them.
FIRST = "settings 3=64 6=16384"
NO_MEMORY = ["  grpc-status: 8", "  grpc-message: out of memory"]
# What a call ends with that was told of its reset. Where its reset is ordered just then, this may be written before RST_STREAM would.
CANCELLED = ["  grpc-status: 1", "  grpc-message: cancelled"]
HEAD = ["  :status: 200", "  content-type: application/grpc"]


class Unlawful(Exception):
    """What was written breaks a rule."""


def want(holds, fault):
    if not holds:
        raise Unlawful(fault)


# The fields of the static table that a response has (RFC 7541, appendix A), and the symbols with codes of 5 to 8 bits, in the order
# of these codes (appendix B). A text with others isn't read.
STATIC = {31: ("content-type", ""), **{8 + at: (":status", it) for at, it in enumerate("200 204 206 304 400 404 500".split())}}
SYMBOLS = {5: "012aceiost", 6: " %-./3456789=A_bdfghlmnpru", 7: ":BCDEFGHIJKLMNOPQRSTUVWYjkqvwxyz", 8: "&*,;XZ"}


def codes():
    found, code, length = {}, 0, 5
    for bits, symbols in SYMBOLS.items():
        code, length = code << (bits - length), bits
        for symbol in symbols:
            found[bits, code] = symbol
            code += 1
    return found


CODES = codes()


def unpack(octets):
    """The text of a Huffman code."""
    text, code, length = "", 0, 0
    for octet in octets:
        for bit in range(7, -1, -1):
            code, length = code << 1 | octet >> bit & 1, length + 1
            if (length, code) in CODES:
                text += CODES[length, code]
                code = length = 0
    want(length < 8 and code == (1 << length) - 1, "the padding of a text is no part of EOS")
    return text


class Blocks:
    """Reads the header blocks of a connection."""

    def __init__(self):
        self.table = []

    def integer(self, prefix):
        most = (1 << prefix) - 1
        value = self.block[self.at] & most
        self.at += 1
        shift = 0
        while value >= most:
            octet = self.block[self.at]
            self.at += 1
            value += (octet & 127) << shift
            shift += 7
            if octet < 128:
                break
        return value

    def text(self):
        is_packed = self.block[self.at] >= 128
        length = self.integer(7)
        octets = self.block[self.at:self.at + length]
        want(len(octets) == length, "a text is longer than its block")
        self.at += length
        return unpack(octets) if is_packed else octets.decode("ascii")

    def entry(self, index):
        found = STATIC.get(index) if index < 62 else self.table[index - 62] if index - 62 < len(self.table) else None
        want(found, f"index {index} of a header block")
        return found

    def fields(self, block):
        self.block, self.at, found = block, 0, []
        try:
            while self.at < len(block):
                first = block[self.at]
                if first >= 128:
                    found.append(self.entry(self.integer(7)))
                    continue
                want(first >> 5 != 1, "the size of the table changes")
                index = self.integer(6 if first >= 64 else 4)
                name = self.entry(index)[0] if index else self.text()
                found.append((name, self.text()))
                if first >= 64:
                    self.table.insert(0, found[-1])
        except (IndexError, UnicodeDecodeError):
            raise Unlawful(f"the header block {block.hex()}") from None
        return found


class Stream:
    def __init__(self):
        self.lines, self.piece, self.data, self.state = [], b"", b"", "fresh"

    def tell(self, *lines):
        if self.piece:
            self.lines.append(f"data {len(self.piece)} {self.piece.hex()}")
            self.piece = b""
        self.lines += lines


class Written:
    """What a client reads of these bytes, stream by stream."""

    def __init__(self, octets):
        self.streams, self.blocks, self.credit, self.is_over = {}, Blocks(), {}, False
        frames, self.left = wire.split(octets)
        for at, frame in enumerate(frames):
            want(not self.is_over, "a frame stands behind a GOAWAY with an error")
            self.take(at, *frame)
        for stream in self.streams.values():
            stream.tell()

    def take(self, at, kind, flags, number, content):
        want(len(content) <= wire.LARGEST, "a frame is too long")
        want((at == 0) == (kind == wire.SETTINGS and not flags & wire.ACK), "the first frame is no SETTINGS, or another is")
        if kind == wire.WINDOW_UPDATE:
            want(len(content) == 4 and 0 < int.from_bytes(content, "big") < 1 << 31, "the increment of a WINDOW_UPDATE")
            want(number not in self.streams or self.streams[number].state != "reset", "WINDOW_UPDATE behind RST_STREAM")
            self.credit[number] = self.credit.get(number, 0) + int.from_bytes(content, "big")
            return
        stream = self.streams.setdefault(number, Stream())
        if kind in (wire.SETTINGS, wire.PING, wire.GOAWAY):
            want(number == 0, f"frame {kind} on stream {number}")
            self.control(stream, kind, flags, content)
        elif kind == wire.RST_STREAM:
            want(number and len(content) == 4 and stream.state != "reset", f"RST_STREAM on stream {number}")
            stream.state = "reset"
            stream.tell(f"reset {int.from_bytes(content, 'big')}")
        elif kind == wire.DATA:
            want(stream.state == "begun" and not flags & ~wire.END_STREAM, f"DATA on stream {number}")
            want(not flags, "END_STREAM on DATA, without trailers")
            stream.piece += content
            stream.data += content
        else:
            want(kind == wire.HEADERS and flags & ~wire.END_STREAM == wire.END_HEADERS, f"frame {kind} with flags {flags}")
            self.header(stream, number, bool(flags & wire.END_STREAM), content)

    def control(self, stream, kind, flags, content):
        if kind == wire.GOAWAY:
            last, code = int.from_bytes(content[:4], "big"), int.from_bytes(content[4:8], "big")
            want(8 <= len(content) <= 136 and content[8:].isascii() and not flags, "the content of a GOAWAY")
            self.is_over = code != 0
            stream.tell(f"goaway {last} {code}")
        elif kind == wire.PING:
            want(len(content) == 8 and flags == wire.ACK, "a PING of the server's own")
            stream.tell(f"ping ack {content.hex()}")
        elif flags:
            want(flags == wire.ACK and not content, "the content of a SETTINGS with ACK")
            stream.tell("settings ack")
        else:
            want(len(content) % 6 == 0, "the content of a SETTINGS")
            pairs = [content[at:at + 6] for at in range(0, len(content), 6)]
            stream.tell("settings " + " ".join(f"{int.from_bytes(it[:2], 'big')}={int.from_bytes(it[2:], 'big')}" for it in pairs))

    def header(self, stream, number, is_last, content):
        want(number and stream.state in ("fresh", "begun"), f"HEADERS on stream {number}")
        want(stream.state == "fresh" or is_last, f"a second head on stream {number}")
        stream.state = "ended" if is_last else "begun"
        stream.tell("headers end" if is_last else "headers", *[f"  {name}: {value}" for name, value in self.blocks.fields(content)])

    def text(self, ending):
        lines = [line for number in sorted(self.streams) for line in (f"stream {number}", *self.streams[number].lines)]
        return "\n".join([*lines, f"ending {ending}", ""])


class Asked:
    """A stream that the client opened."""

    def __init__(self, method):
        self.method, self.pieces, self.is_ended, self.is_reset = method, [], False, False


class Client:
    """What came of a client: whole frames behind the preface, until its error, if there is one."""

    def __init__(self, came):
        self.streams, self.settings, self.pings, self.length, self.has_gone = {}, 0, [], 0, False
        self.credit, self.window = {0: wire.WINDOW}, wire.WINDOW
        is_begun = came.startswith(wire.PREFACE)
        for kind, flags, number, content in wire.split(came[len(wire.PREFACE):])[0] if is_begun else []:
            asked = self.streams.get(number)
            if kind == wire.HEADERS and not asked and flags & wire.END_HEADERS and number % 2:
                path = re.search(rb"/grpc\.testing\.TestService/(\w+)", content)
                asked = self.streams[number] = Asked(path[1].decode() if path else None)
            if kind == wire.DATA and asked:
                asked.pieces.append(content)
                self.length += len(content)
            if kind in (wire.DATA, wire.HEADERS) and asked and flags & wire.END_STREAM:
                asked.is_ended = True
            if kind == wire.RST_STREAM and asked:
                asked.is_reset = True
            if kind == wire.SETTINGS and not flags:
                self.settings += 1
                for at in range(0, len(content), 6):
                    if content[at + 1] == wire.INITIAL_WINDOW:
                        self.window = max(self.window, int.from_bytes(content[at + 2:at + 6], "big"))
            if kind == wire.PING and not flags:
                self.pings.append(f"ping ack {content.hex()}")
            if kind == wire.WINDOW_UPDATE:
                self.credit[number] = self.credit.get(number, 0) + int.from_bytes(content, "big")
            self.has_gone |= kind == wire.GOAWAY


class Wanted:
    """A text as `parts` prints it; and of a stream, on which not all of them can be written, the DATA that are given."""

    def __init__(self, text, given=None):
        self.streams, self.text, self.given = {}, text, given or {}
        for line in text.splitlines():
            if line.startswith("stream "):
                lines = self.streams[int(line.split()[1])] = []
            elif line.startswith("ending "):
                self.ending = int(line.split()[1])
                break
            elif line != "in order":
                lines.append(line)


class Answer:
    """What is wanted on a stream."""

    def __init__(self, wanted, number):
        self.lines = lines = wanted.streams.get(number, [])
        joined = b"".join(bytes.fromhex(line.split()[2]) for line in lines if line.startswith("data "))
        self.replies = wire.messages(wanted.given.get(number, joined))[0]
        told = [line.split()[1] for line in lines if line.startswith("  grpc-status: ")]
        self.status = int(told[-1]) if told else None
        self.is_admitted = lines[:1] not in (["reset 7"], ["reset 1"]) and "  grpc-message: unknown method" not in lines


class Row:
    """What the report has of a call."""

    def __init__(self, stream, method, messages, length, told, replies, replied_length, given, sent, trailers, status):
        self.stream, self.method, self.messages, self.length = int(stream), METHODS[int(method)], int(messages), int(length)
        self.told, self.replies, self.replied_length = told, int(replies), int(replied_length)
        self.given, self.sent, self.trailers = int(given), int(sent), trailers
        self.status = None if status == "left" else int(status)


class Outcome:
    """What became of a run, as the program `device_rows` prints it."""

    def __init__(self, lines):
        told = dict(line.split(" ", 1) for line in lines if not line.startswith(("call ", "over")))
        self.read, *read_failed = told["read"].split()
        self.read, self.read_failed = int(self.read), bool(read_failed)
        self.write_failed = "failed" in told.get("wrote", "")
        self.ending = int(told["ending"])
        self.rows = [Row(*line.split()[1:]) for line in lines if line.startswith("call ")] if "calls" in told else None
        self.written = bytes.fromhex(told.get("written", ""))
        if self.rows is not None and len(self.rows) != int(told["calls"]):
            raise ValueError("the rows aren't as many as are told")


def faults_of(given, wanted, outcome, lacks=False):
    """What is wrong with what became of a run over these bytes. `lacks`: memory or threads were refused."""
    try:
        written = Written(outcome.written)
        client = Client(given[:outcome.read])
        want(not written.left or outcome.write_failed, "a frame is cut")
        judge_ending(given, client, wanted, outcome, lacks)
        judge_connection(client, wanted, written, outcome, lacks)
        want(outcome.rows is not None, "there is no report")
        rows = {row.stream: row for row in outcome.rows}
        judge_rows(client, wanted, written, outcome, lacks)
        for number, asked in client.streams.items():
            answer = Answer(wanted, number)
            stream = written.streams.get(number, Stream())
            try:
                judge_stream(asked, answer, stream, rows.get(number), outcome, lacks)
                want(len(stream.data) <= client.window + client.credit.get(number, 0), "DATA past its window")
                if number in rows:
                    judge_row(asked, answer, stream, rows[number], outcome, lacks)
            except Unlawful as fault:
                raise Unlawful(f"stream {number}: {fault}") from None
    except Unlawful as fault:
        return [str(fault)]
    return []


def judge_ending(given, client, wanted, outcome, lacks):
    """The first of 6, 5, 3 and 4 that has its cause, and else what the input ended with."""
    heard = READ_FAILED if outcome.read_failed else PEER_GOAWAY if client.has_gone else INPUT_ENDED
    lawful = {heard}
    if wanted.ending == PROTOCOL_ERROR:
        lawful = {PROTOCOL_ERROR} if outcome.read == len(given) else {PROTOCOL_ERROR, heard}
    if outcome.write_failed:
        lawful = {WRITE_FAILED}
    if lacks:
        lawful.add(OUT_OF_MEMORY)
    want(outcome.ending in lawful, f"the ending is {outcome.ending}, not {sorted(lawful)}")


def judge_connection(client, wanted, written, outcome, lacks):
    """SETTINGS first, an acknowledgement for each SETTINGS and PING, in order, and at last GOAWAY where there is an error."""
    lines = written.streams[0].lines if 0 in written.streams else []
    want(lines[:1] == [FIRST] or (not lines and outcome.ending in CUT), f"SETTINGS are {lines[:1]}")
    goaways = [line for line in lines if line.startswith("goaway ")]
    acknowledged = [line for line in lines[1:] if line == "settings ack"]
    pings = [line for line in lines if line.startswith("ping ")]
    is_all = outcome.ending not in CUT
    want(len(acknowledged) == client.settings if is_all else len(acknowledged) <= client.settings, "acknowledgements of SETTINGS")
    want(pings == client.pings if is_all else pings == client.pings[:len(pings)], "acknowledgements of PING")
    lawful = [line for line in wanted.streams[0] if line.startswith("goaway ")] if outcome.ending in CUT else []
    is_whole = goaways == lawful or (not goaways and outcome.ending in (WRITE_FAILED, OUT_OF_MEMORY))
    without_memory = [f"goaway {last} 2" for last in (0, *client.streams)]
    is_lacking = lacks and outcome.ending == OUT_OF_MEMORY and len(goaways) == 1 and goaways[0] in without_memory
    want(is_whole or is_lacking, f"GOAWAY: {goaways}")
    sent = sum(len(stream.data) for stream in written.streams.values())
    want(sent <= client.credit[0], "DATA past the connection's window")
    want(not {*written.streams, *written.credit} - {0, *client.streams}, "a stream that no client opened")
    for number, credit in written.credit.items():
        came = sum(map(len, client.streams[number].pieces)) if number else client.length
        want(credit <= came, f"credit of {credit} on stream {number}, and {came} bytes came")


def judge_rows(client, wanted, written, outcome, lacks):
    """A row for each call that was admitted, in their order; all that came were, where the input was heard to its end. One that
    would be too many is admitted too where one before it isn't live: the writer has stopped, or it was left for want of memory."""
    admitted = [it for it in client.streams if Answer(wanted, it).is_admitted]
    told = [row.stream for row in outcome.rows]
    may_be_more = lacks or outcome.ending == WRITE_FAILED
    cut = [it for it in client.streams if it in admitted or may_be_more and Answer(wanted, it).lines[:1] == ["reset 7"]]
    want(told in (admitted[:len(told)], cut[:len(told)]), f"rows of {told}, and {admitted} were admitted")
    want(len(told) >= len(admitted) or outcome.ending in CUT, f"rows of {told} alone, and {admitted} were admitted")
    answered = [it for it in admitted if it in written.streams and written.streams[it].lines]
    want(not set(answered) - set(told), f"no rows of {sorted(set(answered) - set(told))}, which were answered")


def judge_stream(asked, answer, stream, row, outcome, lacks):
    """What stands on the stream begins what is wanted, and breaks off only where there is a cause. A call that is left for want of
    memory once the input has ended needs no reset, since the connection ends. Where the connection ends with an error, all calls do
    (RFC 9113, section 5.4.1): one may be answered so before the GOAWAY is written."""
    lines = stream.lines
    rest = begun(lines, answer.lines)
    if asked.is_reset:
        want(not rest, f"it has {lines}, and its client reset it")
        return
    if answer.is_admitted and not asked.is_ended:
        is_last = not rest and "headers end" in lines and answer.status == 0
        want(not is_last, "trailers before its half ended")
        want(asked.method == "FullDuplexCall" or not stream.data, "a reply before its half ended")
    if lines == answer.lines:
        return
    if not rest:
        is_left = lacks and row and row.status is None
        want(is_left or outcome.ending in CUT, f"it has {lines} alone, and {answer.lines} were wanted")
    elif rest == ["reset 8"]:
        want(not asked.is_ended, f"it has {rest}, though its half ended")
    elif is_ended_by(CANCELLED, rest):
        want(not asked.is_ended or outcome.ending in CUT, f"it has {rest}, though its half ended, and the connection ended with no error")
    else:
        is_without_memory = is_ended_by(NO_MEMORY, rest) or rest in (["reset 2"], ["reset 11"])
        want(lacks and is_without_memory, f"it has {rest} in place of {answer.lines}")


def begun(lines, wanted):
    """What stands behind the lines that are those that are wanted, the last of them maybe a beginning of DATA."""
    at = 0
    while at < min(len(lines), len(wanted)) and lines[at] == wanted[at]:
        at += 1
    if at < min(len(lines), len(wanted)) and lines[at].startswith("data ") and wanted[at].startswith("data "):
        at += wanted[at].split()[2].startswith(lines[at].split()[2])
    return lines[at:]


def is_ended_by(trailers, rest):
    """Whether these lines are such trailers, behind a head that was wanted or is theirs, or with it in one block."""
    return rest in (trailers, ["headers end", *trailers], ["headers end", *HEAD, *trailers], ["headers", *HEAD, "headers end", *trailers])


def judge_items(stream, row):
    """How many items were given is by the rules of a response: a head where there are replies, or the status is 0; the replies; trailers
    where there is a status. No more were sent than given, and no fewer than are written, the last message maybe in part."""
    has_head = "headers" in stream.lines
    least = row.replies + bool(row.replies or row.status == 0 or has_head) + (row.status is not None)
    most = row.replies + 1 + (row.status is not None)
    want(least <= row.given <= (most if not row.replies else least), f"{row.given} items were given with {row.replies} replies, status {row.status}")
    want((row.trailers == "none") == (row.status is None), f"trailers are {row.trailers}, and its status is {row.status}")
    messages, rest = wire.messages(stream.data)
    is_ended = "headers end" in stream.lines
    written = has_head + len(messages) + bool(rest) + is_ended
    want(written <= row.sent <= row.given, f"{row.sent} items were sent, {row.given} given, and {written} are written")
    want((row.trailers == "sent") == (row.sent == row.given and row.status is not None), f"{row.sent} of {row.given} items were sent, and trailers {row.trailers}")
    want(not is_ended or row.trailers == "sent", "trailers are written that weren't sent")


def judge_row(asked, answer, stream, row, outcome, lacks):
    """What the report says of a call is what came and what was answered."""
    came = b"".join(asked.pieces)
    is_cut = outcome.ending in CUT
    want(row.method == asked.method, f"the method is {row.method}")
    want(row.length in {len(b"".join(asked.pieces[:at])) for at in range(len(asked.pieces) + 1)}, f"{row.length} bytes came for it")
    messages = wire.messages(came[:row.length])[0]
    want(row.messages <= len(messages), f"{row.messages} messages were taken of {len(messages)}")
    if row.told == "end":
        want(asked.is_ended and row.length == len(came) and row.messages == len(messages), "its end is told, and something is missing")
    want(row.told != "reset" or not asked.is_ended or asked.is_reset or is_cut, "a reset is told that didn't come")
    want(row.told != "fault", "a fault of its messages is told")
    replies = answer.replies[:row.replies]
    want(row.replies == len(replies) and row.replied_length == sum(map(len, replies)), f"{row.replies} replies of {row.replied_length} bytes")
    want(len(stream.data) <= row.replied_length + 5 * row.replies, "more was written than was given")
    judge_items(stream, row)
    if row.status is None:
        want(not asked.is_ended or asked.is_reset or is_cut or lacks, "it has no status")
    else:
        is_cancelled = row.status == 1 and (row.told == "reset" or not asked.is_ended)
        is_lawful = row.status == answer.status or is_cancelled or (row.status == 8 and lacks)
        want(is_lawful, f"its status is {row.status}")
        want(row.status != 0 or row.replies == len(answer.replies), "its status is 0, and replies are missing")
    told = [line.split()[1] for line in stream.lines if line.startswith("  grpc-status: ")]
    want(not told or int(told[0]) == row.status, f"its status is {row.status}, and {told} was written")
