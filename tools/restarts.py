#!/usr/bin/env python3
"""Kills a node that keeps its frames, starts it again, and checks that it makes no promise twice. Not part of the gate.

    tools/restarts.py PROGRAM

PROGRAM is a build of `consensus_routing`. Node 1 of two consolidators answers a peer that asks it to promise and to accept five
ballots. It is killed with SIGKILL after each answer in turn; at each byte of its file in turn, inside the write of that byte (the
system's limit on the size of a file kills it there); and between the write of a record and that of its gate, where a torn gate
byte is put in its place. Then it is started again, and the peer goes on: it repeats the frame that had no answer, or the one that
had the last, and then sends what is left. Over all runs on one file the promised ballots have to rise, no acceptance may come
twice, and each promise has to name the last acceptance that was sent.

It writes a table of what was tried, and ends with 0, with 1 where a promise was broken, or with 2 where the words are wrong."""
import resource
import signal
import socket
import struct
import subprocess
import sys
import tempfile
from pathlib import Path

NETWORK = b"node 1 consolidator\nnode 2 consolidator\nlink 1 2 any\nprefix 10.0.0.0/8\n"
PROMISE, ACCEPTED = 13, 15
SECONDS = 30


def framed(kind, body):
    return struct.pack(">BBI", 1, kind, len(body)) + body


def asked(ballots):
    """For each ballot a prepare and an accept of node 2, of a value that node 1 reported."""
    frames = []
    for ballot in ballots:
        head = struct.pack(">HIIH", 2, 1, *ballot)
        frames += [framed(12, head), framed(14, head + bytes.fromhex("0100010000"))]
    return frames


FRAMES = asked([(number, 2) for number in range(1, 6)])


class Node:
    """A process, and the link that it has dialled. The limit is that of its files, in bytes."""

    def __init__(self, program, file, limit=None):
        server = socket.create_server(("127.0.0.1", 0))
        server.settimeout(SECONDS)
        words = [str(program), "node", "1", "127.0.0.1:%d" % server.getsockname()[1], str(file)]
        within = limit is not None and (lambda: resource.setrlimit(resource.RLIMIT_FSIZE, (limit, limit)))
        self.process = subprocess.Popen(words, stdin=subprocess.PIPE, stderr=subprocess.DEVNULL, preexec_fn=within or None)
        self.process.stdin.write(NETWORK)
        self.process.stdin.close()
        self.link = self.stream = None
        server.settimeout(0.05)
        for _ in range(20 * SECONDS):
            try:
                self.link = server.accept()[0]
                self.link.settimeout(SECONDS)
                self.stream = self.link.makefile("rb")
                break
            except socket.timeout:
                if self.process.poll() is not None:
                    break
        server.close()

    def send(self, frames):
        try:
            if self.link:
                self.link.sendall(b"".join(frames))
        except OSError:
            pass

    def answer(self):
        """The next answer, or None where no whole one comes."""
        try:
            head = self.stream.read(6) if self.stream else b""
            if len(head) < 6:
                return None
            body = self.stream.read(struct.unpack(">I", head[2:])[0])
        except OSError:
            return None
        return head[1], body

    def end(self):
        """Lets it answer all, and gives the answers that were left. It has to end with code 0."""
        self.link.shutdown(socket.SHUT_WR)
        left = list(iter(self.answer, None))
        self.link.close()
        return left, self.process.wait(SECONDS)

    def kill(self):
        self.process.send_signal(signal.SIGKILL)
        self.process.wait(SECONDS)
        if self.link:
            self.link.close()


def broken(answers):
    """The first thing that is wrong with the answers of all runs on one file, or None."""
    promised, accepted = (0, 0), None
    for kind, body in answers:
        ballot = struct.unpack_from(">IH", body, 6)
        if kind == PROMISE:
            named = struct.unpack_from(">IH", body, 13) if body[12] else None
            if ballot <= promised:
                return f"promised {ballot} behind {promised}"
            if accepted is not None and (named is None or named < accepted):
                return f"named {named} behind {accepted}"
            promised = ballot
        elif kind == ACCEPTED:
            if ballot < promised or ballot == accepted:
                return f"accepted {ballot} behind {promised} and {accepted}"
            accepted = ballot
    return None


def goes_on(program, file, done, answers):
    """Starts the node again; the peer repeats from the frame before these on. What is wrong, or None."""
    node = Node(program, file)
    if not node.link:
        return "was not started again"
    node.send(FRAMES[max(done - 1, 0):])
    left, code = node.end()
    if code != 0:
        return f"ended with {code}"
    return broken(answers + left)


def one_by_one(node, count):
    """The answers to the first frames, each sent behind the answer before it."""
    answers = []
    for frame in FRAMES[:count]:
        node.send([frame])
        answer = node.answer()
        if answer is None:
            break
        answers.append(answer)
    return answers


def after_answer(program, file, count):
    node = Node(program, file)
    answers = one_by_one(node, count)
    node.kill()
    return goes_on(program, file, count, answers) if len(answers) == count else "gave no answer"


def inside_write(program, file, limit):
    node = Node(program, file, limit)
    answers = one_by_one(node, len(FRAMES))
    node.kill()
    return goes_on(program, file, len(answers) + 1, answers)


def before_gate(program, file, count, gate):
    node = Node(program, file)
    answers = one_by_one(node, count)
    node.kill()
    content = bytearray(file.read_bytes())
    content[sum(5 + len(frame) for frame in FRAMES[:count - 1])] = gate
    file.write_bytes(content)
    return goes_on(program, file, count, answers[:-1])


def tried(program, ways):
    """How many of the ways were tried, and the first that is wrong, with what is wrong."""
    count = 0
    for way in ways:
        with tempfile.TemporaryDirectory() as folder:
            wrong = way[0](program, Path(folder) / "journal", *way[1:])
        count += 1
        if wrong:
            return count, f"{way[0].__name__} {way[1:]}: {wrong}"
    return count, None


def main(words):
    if len(words) != 1:
        print(__doc__, file=sys.stderr)
        return 2
    size = sum(5 + len(frame) for frame in FRAMES) + 1
    rows = (
        ("with SIGKILL, after an answer", [(after_answer, count) for count in range(len(FRAMES) + 1)]),
        ("inside a write, at a byte", [(inside_write, limit) for limit in range(size)]),
        ("before the gate, which is torn", [(before_gate, count, gate) for count in range(1, len(FRAMES) + 1) for gate in (0, 1, 2, 255)]),
    )
    print("| Killed | Runs | Promises broken |\n|---|---|---|")
    for name, ways in rows:
        count, wrong = tried(words[0], ways)
        print(f"| {name} | {count} | {wrong or 'none'} |", flush=True)
        if wrong:
            return 1
    return 0


if __name__ == "__main__":
    sys.exit(main(sys.argv[1:]))
