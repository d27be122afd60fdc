"""Counts that only a long input reaches: each at its number, and one above it."""
import socket
import subprocess
import unittest

from support import WithProgram

BYTES = 16_777_216
EVENTS = 1_000_000
FRAMES = 1_000_000
SECONDS = 120

PAIR = "node 1\nnode 2\nlink 1 2 any\nprefix 10.0.0.0/8\n"

# Nothing is held back from node 2: the frame does nothing, and counts.
FLUSH = bytes.fromhex("0216000000020002")


def comment(size):
    """A text of so many bytes without a word."""
    return b"#" + bytes(size - 1).replace(b"\0", b"x")


class Limits(WithProgram):
    def ended(self, words, text):
        """The status of the program, what it wrote, and what it noted."""
        ran = subprocess.run([self.program.path, *words], input=text, stdout=subprocess.PIPE, stderr=subprocess.PIPE, timeout=SECONDS, check=False)
        return ran.returncode, ran.stdout.decode(), ran.stderr.decode()

    def test_as_many_bytes_as_there_may_be(self):
        for word, written in (("replay", ""), ("lead", ""), ("audit", "consistent\n")):
            self.assertEqual(self.ended([word], comment(BYTES)), (0, written, ""), word)

    def test_one_byte_more_than_there_may_be(self):
        # nothing is dialled
        for words in (["replay"], ["lead"], ["audit"], ["node", "1", "127.0.0.1:1"]):
            self.assertEqual(self.ended(words, comment(BYTES + 1)), (5, "", f"limit: bytes {BYTES}\n"), words)

    def test_events_of_a_script(self):
        front, event = b"member 1\nbegin\nrestart 1\n", b"crash 1\nrestart 1\n"
        whole = front + event * (EVENTS // 2 - 1) + b"crash 1\n"
        self.assertEqual(self.ended(["lead"], whole), (0, "3: idle not crashed\n", ""))
        self.assertEqual(self.ended(["lead"], whole + b"restart 1\n"), (5, "3: idle not crashed\n", f"limit: events {EVENTS}\n"))

    def after_frames(self, count):
        """The status of a node that gets so many frames, and what it noted."""
        with socket.create_server(("127.0.0.1", 0)) as server:
            server.settimeout(SECONDS)
            words = [self.program.path, "node", "1", f"127.0.0.1:{server.getsockname()[1]}"]
            with subprocess.Popen(words, stdin=subprocess.PIPE, stderr=subprocess.PIPE) as process:
                process.stdin.write(PAIR.encode())
                process.stdin.close()
                process.stdin = None
                link, _ = server.accept()
                with link:
                    link.settimeout(SECONDS)
                    link.sendall(FLUSH * count)
                    link.shutdown(socket.SHUT_WR)
                    noted = process.communicate(timeout=SECONDS)[1]
                    return process.returncode, noted.decode()

    def test_as_many_frames_as_there_may_be(self):
        self.assertEqual(self.after_frames(FRAMES), (0, ""))

    def test_one_frame_more_than_there_may_be(self):
        self.assertEqual(self.after_frames(FRAMES + 1), (5, f"limit: frames {FRAMES}\n"))


if __name__ == "__main__":
    unittest.main()
