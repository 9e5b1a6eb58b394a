#!/usr/bin/python3
"""The comparisons of checks/frames. It needs Debian's python3-hpack."""
import os
import random
import re
import shutil
import struct
import subprocess
import sys
import tempfile

import hpack

HERE = os.path.dirname(os.path.abspath(__file__))
RECORDINGS = os.path.join(HERE, "..", "..", "crates", "connection_rows", "data", "recordings")
PREFACE = b"PRI * HTTP/2.0\r\n\r\nSM\r\n\r\n"
KINDS = ["DATA", "HEADERS", "PRIORITY", "RST_STREAM", "SETTINGS", "PUSH_PROMISE", "PING", "GOAWAY", "WINDOW_UPDATE", "CONTINUATION"]
FLAGS = {0: {1: "END_STREAM", 8: "PADDED"}, 1: {1: "END_STREAM", 4: "END_HEADERS", 8: "PADDED", 0x20: "PRIORITY"}, 4: {1: "ACK"}, 6: {1: "ACK"}, 9: {4: "END_HEADERS"}}
PORT = 50051
FRAME = re.compile(r"^(\d+\.\d{6}) (client|server)(?: stream (\d+))? ([A-Z_]+)((?: [A-Z_]+)*), ([\d,]+) bytes?(?:[:;] ?(.*))?$")
FIELD = re.compile(r'"((?:[^"\\]|\\.)*)"="((?:[^"\\]|\\.)*)"')
wrong = 0


def want(holds, what):
    global wrong
    if not holds:
        wrong += 1
        print("frames:", what)


def frames_of(data):
    """(type, flags, stream, payload) of bytes that are whole frames, by their heads."""
    found, at = [], 0
    while at < len(data):
        length = int.from_bytes(data[at : at + 3], "big")
        kind, flags = data[at + 3], data[at + 4]
        stream = int.from_bytes(data[at + 5 : at + 9], "big") & 0x7FFFFFFF
        found.append((kind, flags, stream, data[at + 9 : at + 9 + length]))
        at += 9 + length
    return found


def frame(kind, flags, stream, payload=b""):
    return struct.pack(">I", len(payload))[1:] + bytes([kind, flags]) + struct.pack(">I", stream) + payload


def answers(client):
    """What a server may have sent to this client: a head, a message and trailers to each stream, in a few header blocks of each spelling."""
    encoder, sent = hpack.Encoder(), [frame(4, 0, 0, struct.pack(">HIHI", 3, 64, 4, 100000)), frame(4, 1, 0)]
    streams = sorted({stream for kind, _, stream, _ in client if kind == 1})
    for number, stream in enumerate(streams):
        head = encoder.encode([(":status", "200"), ("content-type", "application/grpc"), ("x-number", str(number))], huffman=number % 2 == 0)
        sent += [frame(1, 0, stream, head[:3]), frame(9, 4, stream, head[3:])]
        message = b"\0" + struct.pack(">I", 20000) + bytes(20000)
        sent += [frame(0, 0, stream, message[:16384]), frame(0, 8, stream, b"\2" + message[16384:] + b"\0\0")]
        sent.append(frame(1, 5, stream, encoder.encode([("grpc-status", str(number % 17)), ("grpc-message", 'a "b"')])))
        sent.append(frame(8, 0, stream, struct.pack(">I", 5)))
    sent.append(frame(8, 0, 0, struct.pack(">I", 70000)))
    sent.append(frame(7, 0, 0, struct.pack(">II", max(streams, default=0), 11) + b"too_many_pings"))
    return b"".join(sent)


def fields_of(frames):
    """The fields of each frame that ends a header block, by its place."""
    decoder, found, block = hpack.Decoder(max_header_list_size=1 << 20), {}, b""
    for place, (kind, flags, _, payload) in enumerate(frames):
        if kind == 1:
            block = payload
            if flags & 8:
                block = block[1 : len(block) - block[0]]
            if flags & 0x20:
                block = block[5:]
        elif kind == 9:
            block += payload
        else:
            continue
        if flags & 4:
            found[place] = [(bytes(name), bytes(value)) for name, value in decoder.decode(block, raw=True)]
    return found


def text_of(value):
    """The bytes that stand between quotes."""
    plain = re.sub(r"\\(x..|.)", lambda m: chr(int(m[1][1:], 16)) if m[1][0] == "x" else {"n": "\n", "r": "\r", "t": "\t"}.get(m[1], m[1]), value)
    return plain.encode("latin-1")


def names_of(kind, flags):
    names, left = [], flags
    for bit, name in FLAGS.get(kind, {}).items():
        if flags & bit:
            names.append(name)
            left &= ~bit
    return names + (["flags", f"0x{left:02x}"] if left else [])


def run(program, words, text):
    done = subprocess.run([program, *words], input=text.encode(), stdout=subprocess.PIPE, stderr=subprocess.PIPE, timeout=120)
    want(done.returncode == 0, f"{words}: status {done.returncode}: {done.stderr[-300:]!r}")
    return done.stdout.decode()


def pieces_of(client, server, seed):
    """Lines of standard input: both sides' bytes, cut at random."""
    source, time, lines = random.Random(seed), 0, []
    rest = {"client": client, "server": server}
    while any(rest.values()):
        side = source.choice([side for side, left in rest.items() if left])
        count = source.choice([1, 7, 9, 100, 16393, 70000])
        time += source.choice([0, 13, 999, 1000001])
        lines.append(f"{time} {side} {rest[side][:count].hex()}")
        rest[side] = rest[side][count:]
    return "".join(line + "\n" for line in lines)


def compare_side(name, side, data, frames, lines):
    """The lines of one side against its frames."""
    total = 0
    heads = []
    for line in lines:
        if line.endswith(" client preface, 24 bytes"):
            total += 24
            continue
        found = FRAME.match(line)
        if not found:
            want(False, f"{name}: not read: {line[:200]}")
            continue
        _, _, stream, kind, flags, length, rest = found.groups()
        length = int(length.replace(",", ""))
        total += 9 + length
        heads.append((kind, flags.split(), int(stream or 0), length, rest or ""))
    want(total == len(data), f"{name} {side}: lines of {total} bytes, and {len(data)} were sent")
    want(len(heads) == len(frames), f"{name} {side}: {len(heads)} lines, {len(frames)} frames")
    fields = fields_of(frames)
    for place, ((kind, flags, stream, payload), head) in enumerate(zip(frames, heads)):
        wanted = (KINDS[kind], names_of(kind, flags), stream, len(payload))
        want(head[:4] == wanted, f"{name} {side} {place}: {head[:4]}, wanted {wanted}")
        if place in fields:
            shown = [(text_of(a), text_of(b)) for a, b in FIELD.findall(head[4].split("; the call ends")[0])]
            want(shown == fields[place], f"{name} {side} {place}: {shown}, wanted {fields[place]}")
        if kind == 7:
            want('"too_many_pings"' in head[4] and "code 11 ENHANCE_YOUR_CALM" in head[4], f"{name}: {head[4]}")


def by_tshark(name, capture, client, server):
    """The frames that tshark finds, of each side."""
    with tempfile.NamedTemporaryFile(suffix=".pcap") as file:
        file.write(capture)
        file.flush()
        base = ["tshark", "-r", file.name, "-d", f"tcp.port=={PORT},http2", "-o", "tcp.check_checksum:TRUE", "-o", "ip.check_checksum:TRUE"]
        bad = subprocess.run(base + ["-Y", "tcp.analysis.flags || tcp.checksum.status == 0 || ip.checksum.status == 0 || _ws.malformed"], stdout=subprocess.PIPE, stderr=subprocess.DEVNULL, text=True)
        want(bad.returncode == 0 and not bad.stdout, f"{name}: tshark says {bad.stdout[:300]}")
        fields = ["tcp.srcport", "http2.type", "http2.streamid", "http2.flags", "http2.length"]
        words = base + ["-T", "fields", "-E", "separator=;"] + [w for f in fields for w in ("-e", f)]
        found = {"client": [], "server": []}
        for line in subprocess.run(words, stdout=subprocess.PIPE, stderr=subprocess.DEVNULL, text=True).stdout.splitlines():
            port, *columns = line.split(";")
            if columns[0]:
                rows = zip(*(column.split(",") for column in columns))
                found["server" if int(port) == PORT else "client"] += [tuple(int(word, 0) for word in row) for row in rows]
    for side, frames in (("client", client), ("server", server)):
        wanted = [(kind, stream, flags, len(payload)) for kind, flags, stream, payload in frames]
        want(found[side] == wanted, f"{name} {side}: tshark finds {len(found[side])} frames, wanted {len(wanted)}")
    return len(found["client"]) + len(found["server"])


def as_files(program, name, side, data):
    """A file of one side's bytes, and one of their digits, are shown as a line with them is."""
    wanted, digits = run(program, ["short"], f"{side} {data.hex()}\n"), data.hex()
    want(run(program, ["file"], digits) == wanted, f"{name} {side}: other lines of its bytes")
    folded = "".join(f"{digits[at : at + 64]}\n" for at in range(0, len(digits), 64))
    want(run(program, ["short"], folded) == wanted, f"{name} {side}: other lines of its digits")


def captured(program, name, text, client, server, by_others):
    """A capture is read back and shown, and tshark finds the frames in it, which are counted."""
    total, lines = 0, run(program, ["short"], text)
    for word in ("capture", "capture6"):
        digits = run(program, [word], text)
        want(run(program, ["file"], digits) == lines, f"{name}: other lines of {word}")
        want(run(program, ["read"], digits) == "".join(part + "\n" for line in text.splitlines() for part in split(line)), f"{name}: {word} isn't read back")
        if by_others and shutil.which("tshark"):
            total += by_tshark(f"{name} {word}", bytes.fromhex(digits), client, server)
    return total


def main(program, names):
    total = shown = 0
    for file in sorted(os.listdir(RECORDINGS)):
        if not file.endswith(".hex") or names and file[:-4] not in names:
            continue
        name = file[:-4]
        with open(os.path.join(RECORDINGS, file)) as digits:
            client = bytes.fromhex(digits.read())
        client_frames = frames_of(client[len(PREFACE) :])
        server = answers(client_frames)
        server_frames = frames_of(server)
        as_files(program, name, "client", client)
        as_files(program, name, "server", server)
        texts = set()
        for seed in (1, 2):
            text = pieces_of(client, server, seed)
            lines = run(program, ["full"], text).splitlines()
            for side, data, frames in (("client", client, client_frames), ("server", server, server_frames)):
                mine = [line for line in lines if line.split(" ")[1] == side]
                compare_side(name, side, data, frames, mine)
                texts.add((side, "\n".join(line.split(" ", 1)[1] for line in mine if not re.search(" (DATA|WINDOW_UPDATE|SETTINGS)", line))))
            want(run(program, ["short"], text) == run(program, ["cut", "5"], text), f"{name}: another text in pieces of 5")
            shown += len(lines)
            total += captured(program, name, text, client_frames, server_frames, seed == 1)
        want(len(texts) == 2, f"{name}: another text where the pieces are others")
    print(f"frames: {shown} lines, {total} frames by tshark, {wrong} wrong")
    return 1 if wrong else 0


def split(line):
    """A line as it is read back: at most 65,000 bytes each."""
    time, side, digits = line.split(" ")
    return [f"{time} {side} {digits[at : at + 130000]}" for at in range(0, len(digits), 130000)]


if __name__ == "__main__":
    sys.exit(main(sys.argv[1], sys.argv[2:]))
