#!/usr/bin/env python3
"""Writes a trace as qlog on standard output, for viewers of qlog.

    tools/qlog.py TRACE     the trace's packets and states as records of JSON text sequences (RFC 7464), qlog 0.3
    tools/qlog.py --check   fails where the records of two small traces lack a field that the drafts ask for

The events are those of the drafts on qlog for QUIC: packet_sent, packet_received, packet_dropped and connection_state_updated.
Times are milliseconds from the trace's time 0. Of a packet that came the frames are those that were given to a layer. A file
that is no trace is named with its first wrong line, and nothing is written.
"""
import json
import os
import re
import sys

sys.path.insert(0, os.path.dirname(os.path.realpath(__file__)))
from trace import TraceFault, read_trace

TYPES = {"initial": "initial", "handshake": "handshake", "data": "1RTT"}
STATES = ("handshake_started", "handshake_complete", "closing", "draining", "closed")
# What a dropped packet's verdict is called there.
TRIGGERS = {"Ignored": "key_unavailable", "Failure": "decryption_failure", "BadBits": "invalid", "Seen": "duplicate"}
# The fields of a frame that are variable-length integers, in their order (RFC 9000, section 19); the rest of it are bytes.
INTEGERS = {
    0x04: ("stream_id", "error_code", "final_size"),
    0x05: ("stream_id", "error_code"),
    0x06: ("offset", "length"),
    0x07: ("length",),
    0x10: ("maximum",),
    0x11: ("stream_id", "maximum"),
    0x12: ("maximum",),
    0x13: ("maximum",),
    0x14: ("limit",),
    0x15: ("stream_id", "limit"),
    0x16: ("limit",),
    0x17: ("limit",),
    0x18: ("sequence_number", "retire_prior_to"),
    0x19: ("sequence_number",),
    0x1C: ("error_code", "trigger_frame_type"),
    0x1D: ("error_code",),
    0x31: ("length",),
}
NAMES = {"STREAM": "stream", "APPLICATION_CLOSE": "connection_close", "STREAMS_BLOCKED_BIDI": "streams_blocked", "STREAMS_BLOCKED_UNI": "streams_blocked"}


def integer_at(data, at):
    """A variable-length integer (RFC 9000, section 16), and where it ends."""
    size = 1 << (data[at] >> 6)
    return int.from_bytes(data[at : at + size], "big") & ((1 << (8 * size - 2)) - 1), at + size


def ranges_of(data):
    """What an ACK acknowledges, from its greatest number down, and its delay (RFC 9000, section 19.3)."""
    largest, at = integer_at(data, 1)
    delay, at = integer_at(data, at)
    count, at = integer_at(data, at)
    length, at = integer_at(data, at)
    ranges = [[largest - length, largest]]
    for _ in range(count):
        gap, at = integer_at(data, at)
        length, at = integer_at(data, at)
        last = ranges[-1][0] - gap - 2
        ranges.append([last - length, last])
    return {"ack_delay": delay * 8 / 1000, "acked_ranges": ranges}


def frame_of(told):
    """A frame of the trace as qlog has it; one whose bytes are cut has its name and its bytes alone."""
    name, _, spelled = told.partition("/")
    if not spelled:
        return {"frame_type": "padding", "length": int(name.partition("*")[2])}
    data = bytes.fromhex(spelled)
    frame = {"frame_type": NAMES.get(name, name.lower())}
    try:
        return {**frame, **fields_of(data)}
    except IndexError:
        return {**frame, "raw": {"data": spelled}}


def fields_of(data):
    """The fields of a frame, from its bytes."""
    kind, at, fields = data[0], 1, {}
    if kind in (0x02, 0x03):
        return ranges_of(data)
    if 0x08 <= kind <= 0x0F:
        return stream_of(data)
    for field in INTEGERS.get(kind, ()):
        fields[field], at = integer_at(data, at)
    if kind in (0x1C, 0x1D):
        fields["error_space"] = "transport" if kind == 0x1C else "application"
    if kind in (0x12, 0x13, 0x16, 0x17):
        fields["stream_type"] = "unidirectional" if kind & 1 else "bidirectional"
    if kind == 0x18:
        end = at + 1 + data[at]
        fields.update(connection_id_length=data[at], connection_id=data[at + 1 : end].hex(), stateless_reset_token=data[end:].hex())
    if kind == 0x07:
        fields["token"] = {"raw": {"length": fields.pop("length"), "data": data[at:].hex()}}
    if kind in (0x1A, 0x1B):
        fields["data"] = data[1:].hex()
    if kind == 0x30:
        fields["length"] = len(data) - 1
    return fields


def stream_of(data):
    """The fields of a STREAM frame (RFC 9000, section 19.8)."""
    kind = data[0]
    stream, at = integer_at(data, 1)
    offset, at = integer_at(data, at) if kind & 4 else (0, at)
    length, at = integer_at(data, at) if kind & 2 else (len(data) - at, at)
    return {"stream_id": stream, "offset": offset, "length": length, "fin": bool(kind & 1)}


def given_behind(step):
    """The packets that came in a step, each with the frames that were given behind it."""
    pieces = []
    for deed in step.deeds:
        if deed[0] == "piece":
            pieces.append((deed[1], deed[2], deed[3], []))
        elif deed[0] == "gave" and pieces and re.fullmatch(r"[A-Z0-9_]+/[0-9a-f]+", deed[2]):
            pieces[-1][3].append(frame_of(deed[2]))
    return pieces


def header_of(space, number):
    header = {"packet_type": TYPES.get(space, "unknown")}
    if number not in (None, "-"):
        header["packet_number"] = int(number)
    return header


def events_of(step):
    told = []
    for space, number, frames in step.sealed():
        told.append(("transport:packet_sent", {"header": header_of(space, number), "frames": [frame_of(it) for it in frames]}))
    for space, number, verdict, frames in given_behind(step):
        if verdict in TRIGGERS:
            told.append(("transport:packet_dropped", {"header": header_of(space, number), "trigger": TRIGGERS[verdict], "details": verdict}))
        else:
            told.append(("transport:packet_received", {"header": header_of(space, number), "frames": frames}))
    state = None
    for deed in step.deeds:
        if deed[0] == "life":
            new = STATES[int(deed[1])]
            told.append(("connectivity:connection_state_updated", {**({"old": state} if state else {}), "new": new}))
            state = new
    return [{"time": step.time / 1e6, "name": name, "data": data} for name, data in told]


def records_of(text):
    """The records of a trace: first the head, then an event each. Raises TraceFault."""
    steps, _ = read_trace(text)
    first = next((deed[0] for step in steps for deed in step.deeds if deed[0] in ("seal", "piece")), "seal")
    trace = {
        "vantage_point": {"type": "client" if first == "seal" else "server"},
        "common_fields": {"time_format": "relative", "reference_time": 0},
    }
    head = {"qlog_version": "0.3", "qlog_format": "JSON-SEQ", "title": "qconn", "trace": trace}
    return [head, *(event for step in steps for event in events_of(step))]


# ---- the check: what the drafts ask of each record

ASKED = {
    "transport:packet_sent": ("header",),
    "transport:packet_received": ("header",),
    "transport:packet_dropped": (),
    "connectivity:connection_state_updated": ("new",),
}
ASKED_OF_FRAMES = {
    "padding": (),
    "ping": (),
    "ack": ("acked_ranges",),
    "crypto": ("offset", "length"),
    "stream": ("stream_id", "offset", "length"),
    "connection_close": ("error_space", "error_code"),
    "handshake_done": (),
    "new_token": ("token",),
    "new_connection_id": ("sequence_number", "retire_prior_to", "connection_id"),
    "retire_connection_id": ("sequence_number",),
}
SAMPLE = """qconn 1
step 0 transmit 1000000
seal initial 0 0 ACK/02020001000000 CRYPTO/060003040000 PADDING*3
out 00000000000000000000000000000001/4433 3 - 2 000000
timer 5
step 1 datagram 2500000
piece initial - Failure
piece data 7 Admitted
gave recovery ACK/020a406401020200
gave streams STREAM/0f0441020100ff
gave ids NEW_CONNECTION_ID/1801000401020304000102030405060708090a0b0c0d0e0f
gave life APPLICATION_CLOSE/1d0703627965
life 3
lost ApplicationClosed 7 627965
answer done
timer -
end
"""


def check():
    records = records_of(SAMPLE)
    faults = [] if {"qlog_version", "qlog_format", "trace"} <= records[0].keys() else ["the head"]
    for record in records[1:]:
        name = record["name"]
        if not {"time", "name", "data"} <= record.keys() or not set(ASKED[name]) <= record["data"].keys():
            faults.append(name)
        header = record["data"].get("header", {"packet_type": ""})
        if "packet_type" not in header:
            faults.append(f"{name}: header")
        faults += [frame["frame_type"] for frame in record["data"].get("frames", []) if not set(ASKED_OF_FRAMES[frame["frame_type"]]) <= frame.keys()]
    # Worked out by hand from RFC 9000, sections 16 and 19.
    received = records[3]["data"]["frames"]
    expected = [
        records[1]["time"] == 1.0,
        records[1]["data"]["frames"][0] == {"frame_type": "ack", "ack_delay": 0.0, "acked_ranges": [[2, 2], [0, 0]]},
        records[1]["data"]["frames"][1] == {"frame_type": "crypto", "offset": 0, "length": 3},
        records[2]["name"] == "transport:packet_dropped" and records[2]["data"]["trigger"] == "decryption_failure",
        received[0]["acked_ranges"] == [[8, 10], [4, 4]] and received[0]["ack_delay"] == 0.8,
        received[1] == {"frame_type": "stream", "stream_id": 4, "offset": 258, "length": 1, "fin": True},
        received[2]["connection_id"] == "01020304" and received[2]["stateless_reset_token"] == bytes(range(16)).hex(),
        received[3]["error_code"] == 7 and received[3]["error_space"] == "application",
        records[4]["data"]["new"] == "draining",
    ]
    faults += [f"expectation {number}" for number, holds in enumerate(expected) if not holds]
    for number, wrong in ((1, "qconn 2\nend\n"), (2, "qconn 1\nstep 1 ping 0\n"), (2, "qconn 1\n"), (3, "qconn 1\nend\nend\n")):
        try:
            records_of(wrong)
            faults.append(f"taken as a trace: {wrong!r}")
        except TraceFault as fault:
            if fault.line != number:
                faults.append(f"line {fault.line} named in {wrong!r}")
    for fault in faults:
        print(f"tools/qlog.py: wrong or lacking: {fault}", file=sys.stderr)
    print(f"qlog: {len(records)} records looked at, {len(faults)} faults")
    return 1 if faults else 0


def main():
    names = sys.argv[1:]
    if names == ["--check"]:
        return check()
    if len(names) != 1 or names[0].startswith("-"):
        print(__doc__, file=sys.stderr)
        return 2
    with open(names[0], encoding="utf-8", errors="replace", newline="") as file:
        text = file.read()
    try:
        records = records_of(text)
    except TraceFault as fault:
        print(f"{names[0]}: {fault}", file=sys.stderr)
        return 1
    for record in records:
        sys.stdout.write(f"\x1e{json.dumps(record)}\n")
    return 0


if __name__ == "__main__":
    sys.exit(main())
