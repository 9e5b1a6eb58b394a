#!/usr/bin/python3
"""The runs and comparisons of checks/trace."""
import json
import os
import re
import shutil
import socket
import subprocess
import sys
import tempfile
import time

HERE = os.path.dirname(os.path.abspath(__file__))
sys.dont_write_bytecode = True
sys.path.append(os.path.join(HERE, "..", "wire-server"))
import absent
import scripted
import wire

PARTS = os.path.join(HERE, "..", "parts-data")
KINDS = ["DATA", "HEADERS", "PRIORITY", "RST_STREAM", "SETTINGS", "PUSH_PROMISE", "PING", "GOAWAY", "WINDOW_UPDATE", "CONTINUATION"]
LINE = re.compile(r"^conn (\d+) (\d+\.\d{6}) (client|server) (.*)$")
FRAME = re.compile(r"^(?:stream (\d+) )?(a frame of type \d+|[A-Z_]+)((?: [A-Z_]+| flags 0x[0-9a-f]+)*), ([\d,]+) bytes?(.*)$")
STATUS = re.compile(r"; the call ends with status (\d+)")
wrong = 0


def want(holds, what):
    global wrong
    if not holds:
        wrong += 1
        print("trace:", what)


def number(text):
    return int(text.replace(",", ""))


def entries_of(text):
    """(connection, time, side, frame, bytes, line) of each line of a trace that has bytes; a frame is (kind, flags, stream, length)."""
    found = []
    for line in text.splitlines():
        match = LINE.match(line)
        if not match:
            want(re.match(r"^conn \d+ \d+\.\d{6} (from .* to .*|ended|fault: .*)$", line), f"not read: {line[:200]}")
            continue
        conn, when, side, rest = int(match[1]), match[2], match[3], match[4]
        left = re.match(r"^([\d,]+) bytes?, no whole frame: ", rest)
        if rest == "preface, 24 bytes":
            found.append((conn, when, side, None, 24, rest))
        elif left:
            found.append((conn, when, side, None, number(left[1]), rest))
        else:
            match = FRAME.match(rest)
            want(match, f"not read: {line[:200]}")
            if match:
                frame = (match[2], match[3].strip(), int(match[1] or 0), number(match[4]))
                found.append((conn, when, side, frame, 9 + frame[3], rest))
    return found


def by_conn(entries):
    conns = {}
    for entry in entries:
        conns.setdefault(entry[0], []).append(entry)
    return conns


def segments_of(data):
    """(path, flags, payload) of each segment of a capture."""
    want(data[:4] == b"\xd4\xc3\xb2\xa1", "no capture")
    found, at = [], 24
    while at < len(data):
        size = int.from_bytes(data[at + 8 : at + 12], "little")
        packet = data[at + 16 : at + 16 + size]
        want(len(packet) == size, "a record is cut off")
        at += 16 + size
        if packet[0] >> 4 == 4:
            hosts, segment = (packet[12:16], packet[16:20]), packet[20:]
        else:
            hosts, segment = (packet[8:24], packet[24:40]), packet[40:]
        path = ((hosts[0], int.from_bytes(segment[:2], "big")), (hosts[1], int.from_bytes(segment[2:4], "big")))
        found.append((path, segment[13], segment[20:]))
    return found


def talks_of(text, data):
    """The connections of a capture in its order, by their numbers in the trace: the bytes of the client and of the server. The lines that
    begin them have the client's port, which a later connection may have too."""
    numbers, talks, latest = {}, {}, {}
    for conn, port in re.findall(r"^conn (\d+) 0\.000000 from \S+:(\d+) to ", text, re.MULTILINE):
        numbers.setdefault(int(port), []).append(int(conn))
    for path, flags, payload in segments_of(data):
        if flags & 0x12 == 2:
            talk = talks[numbers[path[0][1]].pop(0)] = {"client": b"", "server": b""}
            latest[path], latest[path[::-1]] = (talk, "client"), (talk, "server")
        talk, side = latest[path]
        talk[side] += payload
    want(not any(numbers.values()), f"connections that the capture hasn't: {numbers}")
    return talks


def written(room, name):
    """What a trace has of each connection, and a capture of the same run."""
    text = read(room, f"{name}.trace")
    return by_conn(entries_of(text)), talks_of(text, read_bytes(room, f"{name}.pcap"))


def adds_up(name, conns, talks):
    """Each byte of each connection is in a line."""
    total = 0
    for conn, talk in talks.items():
        for side in ("client", "server"):
            shown = sum(entry[4] for entry in conns.get(conn, []) if entry[2] == side)
            want(shown == len(talk[side]), f"{name}, connection {conn}, {side}: lines of {shown} bytes, and {len(talk[side])} passed")
            total += shown
    return total


def frames_of(entries, side):
    return [entry[3] for entry in entries if entry[2] == side and entry[3]]


def without_windows(entries, side):
    """What the lines of a side say, but for windows, which depend on when the other side's frames came: credit for a stream that is over moves
    none."""
    return [re.sub(r"; windows.*$|(: \+[\d,]+): .*$", r"\1", entry[5]) for entry in entries if entry[2] == side]


def run(program, *words, status=0, **more):
    done = subprocess.run([program, *words], stdout=subprocess.PIPE, stderr=subprocess.PIPE, timeout=300, stdin=more.pop("stdin", subprocess.DEVNULL), **more)
    want(done.returncode == status, f"{words} ends with {done.returncode}, and not with {status}: {done.stderr[-300:]!r}")
    return done


def read(*parts):
    with open(os.path.join(*parts)) as file:
        return file.read()


def read_bytes(*parts):
    with open(os.path.join(*parts), "rb") as file:
        return file.read()


def wait_for(name):
    for _ in range(100):
        if os.path.exists(name):
            return read(name).split()[0]
        time.sleep(0.1)
    want(False, "no server")
    return "0"


def by_tshark(name, capture, port, conns, talks):
    """The frames that tshark finds, and gRPC's statuses, against those of the trace."""
    places = {conn: place for place, conn in enumerate(talks)}
    base = ["tshark", "-r", capture, "-d", f"tcp.port=={port},http2", "-o", "tcp.check_checksum:TRUE"]
    bad = subprocess.run(base + ["-Y", "(tcp.analysis.flags && !tcp.analysis.reused_ports) || tcp.checksum.status == 0 || _ws.malformed"], stdout=subprocess.PIPE, stderr=subprocess.DEVNULL, text=True)
    want(bad.returncode == 0 and not bad.stdout, f"{name}: tshark says {bad.stdout[:300]}")
    fields = ["tcp.stream", "tcp.srcport", "http2.type", "http2.streamid", "http2.length"]
    words = base + ["-T", "fields", "-E", "separator=;"] + [word for field in fields for word in ("-e", field)]
    found = {}
    for line in subprocess.run(words, stdout=subprocess.PIPE, stderr=subprocess.DEVNULL, text=True).stdout.splitlines():
        stream, source, *columns = line.split(";")
        if columns[0]:
            side = "server" if source == port else "client"
            rows = zip(*(column.split(",") for column in columns))
            found.setdefault((int(stream), side), []).extend(tuple(int(word, 0) for word in row) for row in rows)
    count = 0
    for conn, place in places.items():
        for side in ("client", "server"):
            wanted = [(KINDS.index(kind), stream, length) for kind, _, stream, length in frames_of(conns.get(conn, []), side) if kind in KINDS]
            seen = found.get((place, side), [])
            want(seen == wanted, f"{name}, connection {conn}, {side}: tshark finds {len(seen)} frames, wanted {len(wanted)}")
            count += len(seen)
    words = base + ["-Y", "http2.headers.status or http2.header.name == \"grpc-status\"", "-T", "fields", "-e", "tcp.stream", "-e", "http2.header.name", "-e", "http2.header.value", "-E", "separator=;", "-E", "aggregator=|"]
    statuses = {}
    for line in subprocess.run(words, stdout=subprocess.PIPE, stderr=subprocess.DEVNULL, text=True).stdout.splitlines():
        stream, names, values = line.split(";", 2)
        for one, value in zip(names.split("|"), values.split("|")):
            if one == "grpc-status":
                statuses.setdefault(int(stream), []).append(int(value))
    for conn, place in places.items():
        wanted = [int(match[1]) for entry in conns.get(conn, []) for match in [STATUS.search(entry[5])] if match]
        want(statuses.get(place, []) == wanted, f"{name}, connection {conn}: tshark finds the statuses {statuses.get(place, [])}, wanted {wanted}")
    return count


def cases(program, room):
    """`case all` against `serve`, each with all that is written."""
    server = subprocess.Popen([program, "serve", "--any-port", "--conns", "14", "--port-file", f"{room}/port", "--report", "--trace", "full", "--trace-file", f"{room}/s.trace", "--pcap", f"{room}/s.pcap", "--record", f"{room}/record"], stdin=subprocess.DEVNULL, stdout=subprocess.PIPE, text=True)
    port = wait_for(f"{room}/port")
    run(program, "case", "all", "--port", port, "--trace-file", f"{room}/c.trace", "--pcap", f"{room}/c.pcap")
    report = server.communicate(timeout=60)[0]
    want(server.returncode == 0, f"serve ends with {server.returncode}")
    want(f"record {room}/record/14.txt" in report, f"the report names no record: {report[:200]}")
    total = tshark = 0
    sides = {}
    for name in ("c", "s"):
        conns, talks = written(room, name)
        sides[name] = conns
        total += adds_up(name, conns, talks)
        want(len(conns) == 14, f"{name}: {len(conns)} connections")
        if shutil.which("tshark"):
            tshark += by_tshark(name, f"{room}/{name}.pcap", port, conns, talks)
    for conn in sides["s"]:
        asked, answered = (frames_of(sides["s"][conn], side) for side in ("client", "server"))
        want(asked == frames_of(sides["c"][conn], "client"), f"connection {conn}: the client's frames differ")
        # (a client may leave before it has read the last)
        came = frames_of(sides["c"][conn], "server")
        want(came == answered[: len(came)] and len(came) > 1, f"connection {conn}: the server's frames differ")
    printed = run(program, "frames", "--full", f"{room}/s.pcap").stdout.decode()
    lines = [line for line in read(room, "s.trace").splitlines() if LINE.match(line)]
    want(sorted(printed.splitlines()) == sorted(lines), "frames prints of the capture other lines than the trace has")
    recorded(program, room, sides["s"])
    return total, tshark


def recorded(program, room, conns):
    """The recorded bytes have the lines of the trace, as they stand and as two files of digits, and `parts` takes them."""
    for conn in conns:
        text = read(room, "record", f"{conn}.txt")
        printed = entries_of(run(program, "frames", "--full", f"{room}/record/{conn}.txt").stdout.decode())
        want([entry[1:] for entry in printed] == [entry[1:] for entry in conns[conn]], f"record of connection {conn}: other lines than the trace has")
        for side in ("client", "server"):
            with open(f"{room}/{side}.hex", "w") as file:
                file.write("".join(line.split()[2] + "\n" for line in text.splitlines() if f" {side} " in line))
        printed = entries_of(run(program, "frames", "--full", f"{room}/server.hex", f"{room}/client.hex").stdout.decode())
        for side in ("client", "server"):
            want(without_windows(printed, side) == without_windows(conns[conn], side), f"record of connection {conn}: the {side}'s lines differ")
    with open(f"{room}/record/1.txt") as file:
        want("ending 1" in run(program, "parts", stdin=file).stdout.decode(), "parts takes no record")


def others(program, room):
    """`wire` against `serve`, and `case` against `misbehave`."""
    server = subprocess.Popen([program, "serve", "--any-port", "--port-file", f"{room}/port2"], stdin=subprocess.DEVNULL, stdout=subprocess.DEVNULL)
    port = wait_for(f"{room}/port2")
    run(program, "wire", "all", "--port", port, "--trace-file", f"{room}/w.trace", "--pcap", f"{room}/w.pcap")
    text = run(program, "case", "empty_unary", "--port", port, "--trace").stderr.decode()
    server.terminate()
    server.wait()
    want(len(by_conn(entries_of(text))) == 1, f"no trace on standard error: {text[:200]}")
    total = adds_up("wire", *written(room, "w"))
    servant = subprocess.Popen([program, "misbehave", "goaway", "--port", port, "--ready-file", f"{room}/ready", "--trace-file", f"{room}/m.trace", "--pcap", f"{room}/m.pcap"], stdin=subprocess.DEVNULL, stdout=subprocess.DEVNULL)
    wait_for(f"{room}/ready")
    subprocess.run([program, "case", "empty_unary", "--times", "2", "--port", port], stdout=subprocess.DEVNULL, stderr=subprocess.DEVNULL, timeout=60)
    servant.wait(timeout=60)
    return total + adds_up("misbehave", *written(room, "m"))


def real(program, room):
    """The cases of a client on grpcio, and `case all` against a server on it."""
    python = ["/usr/bin/python3", "-B"]
    if subprocess.run([*python, "-c", "import grpc"], stderr=subprocess.DEVNULL).returncode:
        print("trace: python3-grpcio is not to be had here: its client and server were not run")
        return 0, 0
    server = subprocess.Popen([program, "serve", "--any-port", "--conns", "1", "--port-file", f"{room}/port5", "--trace-file", f"{room}/a.trace", "--pcap", f"{room}/a.pcap"], stdin=subprocess.DEVNULL, stdout=subprocess.DEVNULL)
    ports = [wait_for(f"{room}/port5")]
    run(*python, os.path.join(HERE, "..", "serve-clients", "client.py"), ports[0])
    server.wait(timeout=60)
    server = subprocess.Popen([*python, os.path.join(HERE, "..", "cases-server", "server.py"), f"{room}/port6"])
    ports.append(wait_for(f"{room}/port6"))
    run(program, "case", "all", "--port", ports[1], "--trace-file", f"{room}/b.trace", "--pcap", f"{room}/b.pcap")
    server.kill()
    server.wait()
    total = tshark = 0
    for name, port in zip("ab", ports):
        conns, talks = written(room, name)
        total += adds_up(name, conns, talks)
        tshark += by_tshark(name, f"{room}/{name}.pcap", port, conns, talks) if shutil.which("tshark") else 0
    return total, tshark


def judged(program, room):
    """What `wire` wanted and what came stands in the trace of each try that failed, after its last frame, and in no other."""
    verdicts = set()
    for server in (scripted.NoLimit, scripted.FailsOnce, scripted.NoWindow):
        words = ["wire", "grpc/1-60", "stream/11", "control", "--port", str(wire.listen(server)), "--silence", "300"]
        run(program, *words, "--trace-file", f"{room}/j.trace", "--json", f"{room}/j.json", status=1)
        text = read(room, "j.trace")
        told = faults_of(text)
        for line in read(room, "j.json").splitlines()[:-1]:
            it = json.loads(line)
            failed = it["tries"] - it["passed"] if it["verdict"] in ("failed", "unsteady") else 0
            found = told.get(it["name"], [])
            want(len(found) == failed, f"{it['name']} of {server.__name__}, {it['verdict']}, has {len(found)} faults, and not {failed}")
            want(not failed or found[:1] == [f"wanted {it['wanted']}, came {it['came']}"], f"{it['name']} of {server.__name__}: {found[:1]}")
            verdicts.add((it["verdict"], (it["reason"] or "").startswith("without its fault: ")))
    want(verdicts >= {("ok", False), ("failed", False), ("unsteady", False), ("not applicable", False), ("not applicable", True)}, f"only {verdicts}")
    port, _ = absent.closing()
    run(program, "wire", "grpc/1", "--port", str(port), "--trace-file", f"{room}/j.trace", status=3)
    want(not faults_of(read(room, "j.trace")), "a case that wasn't tested has a fault")


def faults_of(text):
    """The faults of each case, by its name, which the first line of a connection has. Behind one a connection says no more."""
    names, told = {}, {}
    for line in text.splitlines():
        _, conn, _, rest = line.split(" ", 3)
        if rest.startswith("from "):
            names[conn] = rest.rsplit(" ", 1)[1]
        elif rest.startswith("fault: "):
            told.setdefault(names[conn], []).append(rest[len("fault: "):])
            names[conn] = None
        else:
            want(names[conn] or rest == "ended" or ", no whole frame: " in rest, f"behind a fault: {line[:200]}")
    return told


def explained(program, room):
    """The trace of `serve` says why a connection is ended, after the frame that ends it. Another one from the same port is one of its
    own to tshark, whose frames are counted."""
    server = subprocess.Popen([program, "serve", "--any-port", "--conns", "2", "--port-file", f"{room}/port4", "--trace-file", f"{room}/f.trace", "--pcap", f"{room}/f.pcap"], stdin=subprocess.DEVNULL, stdout=subprocess.DEVNULL)
    port, own = wait_for(f"{room}/port4"), 0
    for conn in (1, 2):
        with socket.socket() as client:
            client.setsockopt(socket.SOL_SOCKET, socket.SO_REUSEADDR, 1)
            client.bind(("127.0.0.1", own))
            own = client.getsockname()[1]
            client.connect(("127.0.0.1", int(port)))
            client.sendall(wire.PREFACE + wire.settings() + wire.frame(wire.HEADERS, 5, 1, b"\x80"))
            while client.recv(4096):
                pass
    server.wait(timeout=60)
    text = read(room, "f.trace")
    for conn in (1, 2):
        want(re.search(rf"conn {conn} \S+ server GOAWAY, .*: code 9 COMPRESSION_ERROR, .*\nconn {conn} \S+ fault: .*index 0 \(RFC 7541, 6\.1\)\n", text), f"no reason behind GOAWAY: {text[-600:]}")
    conns, talks = written(room, "f")
    adds_up("f", conns, talks)
    want(text.count(f" from 127.0.0.1:{own} to ") == 2 and len(talks) == 2, f"other connections than two of one port: {text[:200]}")
    return by_tshark("f", f"{room}/f.pcap", port, conns, talks) if shutil.which("tshark") else 0


def parts(program):
    """`frames` prints each byte of the connections of checks/parts-data."""
    count = 0
    for file in sorted(os.listdir(PARTS)):
        if file.endswith(".hex"):
            data = bytes.fromhex(read(PARTS, file))
            with open(os.path.join(PARTS, file)) as text:
                shown = sum(entry[4] for entry in entries_of(run(program, "frames", stdin=text).stdout.decode()))
            want(shown == len(data), f"{file}: lines of {shown} bytes of {len(data)}")
            count += 1
    return count


def unread(program, room):
    """Nobody reads the lines on standard error until all cases are judged: none fails for that, and each line is there then."""
    server = subprocess.Popen([program, "serve", "--any-port", "--port-file", f"{room}/port7"], stdin=subprocess.DEVNULL, stdout=subprocess.DEVNULL)
    port = wait_for(f"{room}/port7")
    words = [program, "case", "all", "--port", port, "--trace", "full", "--pcap", f"{room}/u.pcap"]
    with subprocess.Popen(words, stdin=subprocess.DEVNULL, stdout=subprocess.PIPE, stderr=subprocess.PIPE, text=True) as client:
        said = next((line for line in client.stdout if line.startswith("case: ")), "")
        text = client.stderr.read()
    want(client.returncode == 0 and re.match(r"case: \d+ cases, \d+ ok, 0 failed", said), f"unread lines: {client.returncode}, {said}")
    server.terminate()
    server.wait()
    return adds_up("unread lines", by_conn(entries_of(text)), talks_of(text, read_bytes(room, "u.pcap")))


def packets_of(data):
    """The records of a capture."""
    found, at = [], 24
    while at < len(data):
        size = 16 + int.from_bytes(data[at + 8 : at + 12], "little")
        found.append(data[at : at + size])
        at += size
    return found


def damaged(program, room):
    """Of a capture that lacks packets, or its end, what is known yet is shown, and the rest isn't made up."""
    data = read_bytes(room, "b.pcap" if os.path.exists(f"{room}/b.pcap") else "c.pcap")
    packets = packets_of(data)
    whole = run(program, "frames", stdin=as_file(room, data)).stdout.decode().splitlines()
    place = next(place for place, packet in enumerate(packets) if place > 4 and len(packet) > 56)
    lines = run(program, "frames", stdin=as_file(room, data[:24] + b"".join(packets[:place] + packets[place + 1 :]))).stdout.decode().splitlines()
    told = [line for line in lines if " bytes are missing here, " in line]
    want(len(told) == 1 and told[0].startswith("conn 1 "), f"a packet that is missing: {told}")
    want(not set(lines) - set(whole) - set(told), "frames that never were, where a packet is missing")
    lines = run(program, "frames", stdin=as_file(room, data[:24] + b"".join(packets[place + 1 : place + 40]))).stdout.decode().splitlines()
    want("conn 1 began before the capture: nothing is told of it" in lines, f"a capture from its middle: {lines[:3]}")
    lines = run(program, "frames", stdin=as_file(room, data[:24] + b"".join(packet + packet for packet in packets))).stdout.decode().splitlines()
    want(lines == whole, f"packets that are sent twice: {len(lines)} lines of {len(whole)}")
    cut = run(program, "frames", stdin=as_file(room, data[:-1]), status=2)
    lines = cut.stdout.decode().splitlines()
    want(len(lines) > len(whole) // 2 and not set(lines) - set(whole), f"a capture that is cut off: {len(lines)} lines of {len(whole)}")
    want(b"bad input: the record at byte" in cut.stderr, f"a capture that is cut off: {cut.stderr!r}")


def as_file(room, data):
    """An open file with these bytes."""
    with open(f"{room}/damaged.pcap", "wb") as file:
        file.write(data)
    return open(f"{room}/damaged.pcap", "rb")


def refused(program, room):
    """What can't be written or read is told of."""
    server = subprocess.Popen([program, "serve", "--any-port", "--port-file", f"{room}/port3"], stdin=subprocess.DEVNULL, stdout=subprocess.DEVNULL)
    port = wait_for(f"{room}/port3")
    done = run(program, "case", "empty_unary", "--port", port, "--trace-file", "/dev/full", status=3)
    want(b"case empty_unary ok" in done.stdout and b"the trace can't be written" in done.stderr, f"a full device: {done.stderr!r}")
    run(program, "case", "empty_unary", "--port", port, "--pcap", f"{room}/none/c.pcap", status=3)
    run(program, "case", "empty_unary", "--port", port, "--trace-file", f"{room}/one", "--pcap", f"{room}/one", status=3)
    server.terminate()
    server.wait()
    run(program, "case", "--trace", "all", "--port", port, status=2)
    run(program, "frames", f"{room}/none", status=3)
    run(program, "frames", "a", "b", "c", status=2)
    with open(f"{room}/odd", "w") as file:
        file.write("505")
    run(program, "frames", f"{room}/odd", status=2)
    run(program, "frames", f"{room}/client.hex", f"{room}/client.hex", status=2)
    run(program, "frames", f"{room}/client.hex", f"{room}/client.hex", "--side", "server")


def main(program):
    with tempfile.TemporaryDirectory() as room:
        total, tshark = map(sum, zip(cases(program, room), real(program, room)))
        total += others(program, room)
        judged(program, room)
        tshark += explained(program, room)
        count = parts(program)
        total += unread(program, room)
        damaged(program, room)
        refused(program, room)
    print(f"trace: {total} bytes, {tshark} frames by tshark, {count} of parts-data, {wrong} wrong")
    return 1 if wrong else 0


if __name__ == "__main__":
    sys.exit(main(sys.argv[1]))
