"""The peer of one node: frames in words, and what a node answers."""
import subprocess
import sys
import unittest

from support import TOP, WithProgram

sys.path.insert(0, str(TOP / "tools"))
import peer  # noqa: E402

HELD = "node 1\nnode 2\nlink 1 2 any\nprefix 10.0.0.0/8\nhold 1 2\n"
TWO = "02080000001b0002000000010000000100020001000000010001000000020000" + "00"
ONE = "010800000015000200000001000000010001000000010000010001"
SECONDS = 60


class Words(unittest.TestCase):
    def test_frames_in_words(self):
        for words, wanted in (("originate 0", "0101000000020000"), ("flush 2", "0216000000020002"), ("01 06 00000000", "010600000000")):
            self.assertEqual(peer.spelled(words).hex(), wanted)

    def test_an_update_is_told_and_spelled_in_both_versions(self):
        for words, wanted in (("update 2/1/1 1.1,1.2 0 none", TWO), ("update 2/1/1 1.1 0 1", ONE)):
            self.assertEqual(peer.spelled(words).hex(), wanted)
            frame = bytes.fromhex(wanted)
            self.assertEqual(peer.told(frame[0], frame[1], frame[6:]), words)


class Peer(WithProgram):
    def answers(self, *frames):
        """What the peer tells of the answers of node 1, and the status of the node."""
        words = [sys.executable, str(TOP / "tools" / "peer.py"), "0", *frames]
        with subprocess.Popen(words, stdout=subprocess.PIPE, text=True) as other:
            address = other.stdout.readline().split()[-1]
            node = subprocess.run([self.program.path, "node", "1", address], input=HELD, text=True, timeout=SECONDS, check=False)
            return other.communicate(timeout=SECONDS)[0].splitlines(), node.returncode

    def test_what_is_held_back_comes_in_version_2(self):
        self.assertEqual(self.answers("originate 0", "withdraw 0", "flush 2"), (["update 2/1/1 1.1,1.2 0 none"], 0))

    def test_one_trigger_comes_in_version_1(self):
        self.assertEqual(self.answers("originate 0", "flush 2"), (["update 2/1/1 1.1 0 1"], 0))


if __name__ == "__main__":
    unittest.main()
