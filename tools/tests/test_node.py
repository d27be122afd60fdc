"""The command `node` over a real connection: what its process leaves behind when it ends."""
import socket
import subprocess
import unittest

from support import WithProgram

SNAP = bytes.fromhex("010600000000")
NO_VERSION = b"\x03"
SECONDS = 60


def star(leaves):
    """A network of node 1 and so many neighbours."""
    nodes = [f"node {number}" for number in range(1, leaves + 2)]
    links = [f"link 1 {number} any" for number in range(2, leaves + 2)]
    return "\n".join([*nodes, *links, "prefix 10.0.0.0/8", ""])


def taken(link):
    """All that still comes, up to the end; a reset ends it too."""
    pieces = []
    try:
        while piece := link.recv(65536):
            pieces.append(piece)
    except ConnectionResetError:
        pieces.append(b"reset")
    return b"".join(pieces)


class Node(WithProgram):
    def run_node(self, network, sent, shell='exec "$@"'):
        """The status of the process, what it noted, and all that the peer got, which reads nothing before the process has ended."""
        with socket.create_server(("127.0.0.1", 0)) as server:
            server.settimeout(SECONDS)
            address = f"127.0.0.1:{server.getsockname()[1]}"
            words = ["sh", "-c", shell, "sh", self.program.path, "node", "1", address]
            streams = {"stdin": subprocess.PIPE, "stdout": subprocess.PIPE, "stderr": subprocess.PIPE}
            with subprocess.Popen(words, **streams) as process:
                process.stdin.write(network.encode())
                process.stdin.close()
                process.stdin = None
                link, _ = server.accept()
                with link:
                    link.settimeout(SECONDS)
                    link.sendall(sent)
                    _, noted = process.communicate(timeout=SECONDS)
                    return process.returncode, noted.decode(), taken(link)

    def test_what_was_not_read_costs_the_peer_no_answer(self):
        status, noted, came = self.run_node(star(63), SNAP + NO_VERSION + bytes(40_000))
        self.assertEqual((status, noted), (9, "bad frame: offset 6: version\n"))
        self.assertEqual(len(came), 63 * 16)

    def test_a_closed_standard_error_is_not_the_link(self):
        status, _, came = self.run_node(star(1), NO_VERSION, 'exec "$@" 2>&-')
        self.assertEqual((status, came), (9, b""))

    def test_a_closed_standard_input_is_a_read_fault(self):
        words = ["sh", "-c", 'exec "$@" <&-', "sh", self.program.path, "replay"]
        ended = subprocess.run(words, stdout=subprocess.PIPE, stderr=subprocess.PIPE, timeout=SECONDS, check=False)
        self.assertEqual((ended.returncode, ended.stdout, ended.stderr), (6, b"", b"read fault\n"))


if __name__ == "__main__":
    unittest.main()
