#!/usr/bin/env python3
"""A peer of one node, in both versions of the frames: it waits for the node, sends it frames, and tells in words what comes.

    tools/peer.py PORT "originate 0" "flush 2" "update 2/1/1 2.1,2.2 0 2-3" "01 06 00000000"

A frame is `originate PREFIX`, `withdraw PREFIX`, `flush NODE`, `update NEIGHBOUR/SESSION/NUMBER TRIGGERS PREFIX PATH` with the prefix
as its place in the file and `none` for no path, or any frame in hexadecimal. It says first where it waits (port 0 takes a free
one); then start `node ID 127.0.0.1:PORT`."""
import socket
import struct
import sys

NAMES = {8: "update", 9: "marker", 10: "hello", 11: "report", 12: "prepare", 13: "promise", 14: "accept", 15: "accepted", 16: "decision", 18: "forward", 19: "ended", 20: "published"}
ASKED = {"originate": (1, 1), "withdraw": (1, 2), "flush": (2, 22)}  # the version and the kind; the body is one number of two bytes


def spelled(words):
    """The bytes of a frame. An update for one trigger is of version 1, for more of version 2."""
    first, *rest = words.split()
    if first in ASKED:
        return framed(*ASKED[first], struct.pack(">H", int(rest[0])))
    if first != "update":
        return bytes.fromhex(words)
    listed = [struct.pack(">HI", *map(int, trigger.split("."))) for trigger in rest[1].split(",")]
    count = b"" if len(listed) == 1 else struct.pack(">H", len(listed))
    path = [] if rest[3] == "none" else [int(node) for node in rest[3].split("-")]
    body = struct.pack(">HII", *map(int, rest[0].split("/"))) + count + b"".join(listed)
    return framed(1 if len(listed) == 1 else 2, 8, body + struct.pack(f">HB{len(path)}H", int(rest[2]), len(path), *path))


def framed(version, kind, body):
    return struct.pack(">BBI", version, kind, len(body)) + body


def told(version, kind, body):
    """A frame in words; of all kinds but updates the body as it is."""
    if kind != 8:
        return f"{NAMES.get(kind, kind)} {body.hex()}".strip()
    way = "/".join(map(str, struct.unpack_from(">HII", body)))
    count, at = (1, 10) if version == 1 else (struct.unpack_from(">H", body, 10)[0], 12)
    listed = ",".join(f"{node}.{counter}" for node, counter in struct.iter_unpack(">HI", body[at:at + 6 * count]))
    prefix, length = struct.unpack_from(">HB", body, at + 6 * count)
    path = "-".join(map(str, struct.unpack_from(f">{length}H", body, at + 6 * count + 3))) or "none"
    return f"update {way} {listed} {prefix} {path}"


def main(port, *frames):
    server = socket.create_server(("127.0.0.1", int(port)))
    print("waits at 127.0.0.1:%d" % server.getsockname()[1], flush=True)
    with server, server.accept()[0] as link, link.makefile("rb") as stream:
        for frame in frames:
            link.sendall(spelled(frame))
        link.shutdown(socket.SHUT_WR)
        while head := stream.read(6):
            version, kind, length = struct.unpack(">BBI", head)
            print(told(version, kind, stream.read(length)), flush=True)


if __name__ == "__main__":
    main(*sys.argv[1:])
