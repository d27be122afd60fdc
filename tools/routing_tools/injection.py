"""Runs of the program in which one call of the C library fails: a small library (faults.c) stands before it.

`node` gets a peer on loopback, which sends frames, ends its side, and takes what comes."""
import os
import select
import shutil
import socket
import struct
import subprocess
import tempfile
import threading
from dataclasses import dataclass, field
from pathlib import Path
from typing import List, Optional

from .trouble import MISSING, Trouble

SOURCE = Path(__file__).with_name("faults.c")
# As in faults.c.
KINDS = ["allocation", "look-up's allocation", "read", "write", "note", "look-up", "socket", "dial", "send", "receive"]
COUNTS = struct.Struct(f"={len(KINDS) + 1}Q")
SECONDS = 30
NO_END = "no end"


@dataclass(frozen=True)
class Subject:
    """A run that is made again and again: words, standard input, and for `node` the frames of its peer, and how it is called."""

    name: str
    words: List[str]
    source: bytes
    frames: Optional[bytes] = None
    host: str = "127.0.0.1"

    def is_linked(self):
        return self.frames is not None


@dataclass
class Outcome:
    """How a run ended, the line on standard error, the bytes that it wrote or sent, and its calls by kind."""

    status: object
    note: str
    written: bytes
    calls: dict = field(default_factory=dict)
    failed: int = 0


@dataclass(frozen=True)
class Way:
    """What is different in a run: which call fails and how; a command of the shell before it; who reads what it writes."""

    kind: str = ""
    place: int = 0
    how: str = ""
    shell: str = ":"
    reader: str = "takes all"


class Peer:
    """Waits on loopback for one node. Where it is away nobody listens; else it may reset the link at once."""

    def __init__(self, subject, manner):
        self.frames, self.manner, self.came = subject.frames, manner, b""
        self.server = socket.create_server(("127.0.0.1", 0))
        self.address = f"{subject.host}:{self.server.getsockname()[1]}"
        if manner == "is away":
            self.server.close()
        self.ended, self.end = socket.socketpair()
        self.thread = threading.Thread(target=self.attend, daemon=True)
        self.thread.start()

    def attend(self):
        if self.manner == "is away":
            return
        select.select([self.server, self.ended], [], [])
        # a connection of a process that has ended waits there still
        if not select.select([self.server], [], [], 0)[0]:
            return
        link, _ = self.server.accept()
        with link:
            try:
                self.talk(link)
            except OSError:
                pass  # the node has ended

    def talk(self, link):
        if self.manner == "resets the link":
            link.setsockopt(socket.SOL_SOCKET, socket.SO_LINGER, struct.pack("ii", 1, 0))
            return
        link.sendall(self.frames)
        link.shutdown(socket.SHUT_WR)
        while True:
            piece = link.recv(65536)
            if not piece:
                return
            self.came += piece

    def finish(self):
        """What came, once the node has ended."""
        self.end.close()
        self.thread.join(SECONDS)
        self.ended.close()
        self.server.close()
        return self.came


class Injector:
    """The program with the library before it, in a folder of its own."""

    def __init__(self, program, folder):
        self.program, self.folder = program, Path(folder)
        self.library, self.counts = self.folder / "faults.so", self.folder / "counts"
        compiler = shutil.which("gcc") or shutil.which("cc")
        if not compiler:
            raise Trouble("no C compiler (Debian: gcc, libc6-dev)", MISSING)
        words = [compiler, "-O1", "-shared", "-fPIC", "-o", str(self.library), str(SOURCE), "-ldl"]
        made = subprocess.run(words, stdout=subprocess.PIPE, stderr=subprocess.STDOUT, check=False)
        if made.returncode:
            raise Trouble(f"{compiler} makes no library of {SOURCE}: {made.stdout.decode(errors='replace').strip()[-300:]}", MISSING)

    def run(self, subject, way=Way()):
        self.counts.write_bytes(bytes(COUNTS.size))
        peer = Peer(subject, way.reader) if subject.is_linked() else None
        words = [*subject.words, peer.address] if peer else subject.words
        status, out, note = self.ended(words, subject.source, way)
        written = peer.finish() if peer else out
        *calls, failed = COUNTS.unpack(self.counts.read_bytes())
        return Outcome(status, note, written, dict(zip(KINDS, calls)), failed)

    def ended(self, words, source, way):
        """The status of the process, what it wrote, and its note. The library stands before the program, and not before the shell."""
        script = f'export LD_PRELOAD="$1"; shift; {way.shell}; exec "$@"'
        command = ["sh", "-c", script, "sh", str(self.library) if way.kind else "", self.program.path, *words]
        streams = {"stdin": self.file_of(source), "stdout": subprocess.PIPE, "stderr": subprocess.PIPE}
        if way.reader == "is closed":
            reader, streams["stdout"] = os.pipe()
            os.close(reader)
        with streams["stdin"], subprocess.Popen(command, env={**os.environ, **self.settings(way)}, **streams) as process:
            if way.reader == "is closed":
                os.close(streams["stdout"])
            try:
                out, note = process.communicate(timeout=SECONDS)
            except subprocess.TimeoutExpired:
                process.kill()
                return NO_END, process.communicate()[0] or b"", ""
        return process.returncode, out or b"", note.decode(errors="replace").strip()

    def settings(self, way):
        kind = KINDS.index(way.kind) if way.kind in KINDS else -1
        chosen = {"COUNTS": self.counts, "KIND": kind, "PLACE": way.place, "HOW": way.how}
        return {f"FAULTS_{name}": str(value) for name, value in chosen.items()}

    def file_of(self, source):
        path = self.folder / "source"
        path.write_bytes(source)
        return path.open("rb")


def injector(program):
    """An injector, with the folder that it works in: the caller closes the folder."""
    folder = tempfile.TemporaryDirectory()
    try:
        return Injector(program, folder.name), folder
    except Trouble:
        folder.cleanup()
        raise
