"""Networks of other tools, where nodes stand in a picture, and plots."""
import json
import math
import unittest
import xml.etree.ElementTree as xml

from routing_tools import formats, plot, schedule
from routing_tools.layout import CLEAR, RADIUS, layout, point
from routing_tools.network import Link, Network, tiered
from routing_tools.shaping import shaped
from support import Scratch, WithProgram, command

AS_REL = "# source: a test\n1|2|-1\n3|2|0\n70000|1|-1|bgp\n2|70000|0\n"
GRAPHML = """<?xml version="1.0"?>
<graphml xmlns="http://graphml.graphdrawing.org/xmlns">
  <key attr.name="label" attr.type="string" for="node" id="d1"/>
  <key attr.name="relation" attr.type="string" for="edge" id="d2"/>
  <graph edgedefault="undirected">
    <node id="0"><data key="d1">Basel</data></node>
    <node id="1"><data key="d1">Bern</data></node>
    <node id="2"/>
    <edge source="0" target="1"/>
    <edge source="1" target="2"><data key="d2">customer</data></edge>
    <edge source="1" target="0"/>
  </graph>
</graphml>
"""


def links(net):
    return [(link.a, link.b, link.relation) for link in net.links]


class Reading(Scratch):
    def test_relationships(self):
        code, out, said = command("network", self.write("rel.txt", AS_REL), "--pref", "--announce", "2")
        self.assertEqual(code, 0)
        read = schedule.parse(out)
        self.assertEqual(read.network.nodes, [1, 2, 3, 4])
        # 70000 is above 65535: the lowest free number is 4
        self.assertIn("# 70000", out)
        self.assertIn("other numbers", said)
        self.assertEqual(links(read.network), [(1, 2, "customer"), (3, 2, "peer"), (4, 1, "customer"), (2, 4, "peer")])
        self.assertEqual((read.network.prefs[1, 2], read.network.prefs[2, 1], read.network.prefs[3, 2]), (300, 100, 200))
        self.assertEqual([line.text() for line in read.lines][:2], ["originate 2 10.0.0.0/16", "drain 1000000"])

    def test_a_bad_relationship_has_its_line(self):
        code, _, said = command("network", self.write("rel.txt", "1|2|-1\n1|3|7\n"))
        self.assertEqual(code, 3)
        self.assertIn("line 2", said)

    def test_graphml(self):
        code, out, said = command("network", self.write("zoo.graphml", GRAPHML), "--relation", "peer")
        net = schedule.parse(out).network
        # 0 is no number of a node: it gets the lowest free one, 3
        self.assertEqual((code, net.nodes, links(net)), (0, [1, 2, 3], [(3, 1, "peer"), (1, 2, "customer")]))
        self.assertIn("# 0 Basel", out)
        self.assertIn("left out", said)

    def test_node_link_json(self):
        told = {"nodes": [{"id": "a"}, {"id": 5, "name": "five"}], "edges": [{"source": "a", "target": 5, "relation": "provider"}]}
        code, out, _ = command("network", self.write("net.json", json.dumps(told)))
        self.assertEqual((code, links(schedule.parse(out).network)), (0, [(1, 5, "provider")]))
        self.assertEqual(command("network", self.write("bad.json", '{"nodes": 3}'))[0], 3)

    def test_graphml_is_read_as_it_was_written(self):
        net = tiered(20, 4)
        graph = formats.read_graphml("\n".join(formats.graphml(net)).encode(), "it", "any")
        again, _ = shaped(graph, 64, 3)
        self.assertEqual((again.nodes, links(again)), (net.nodes, links(net)))

    def test_dot_names_all(self):
        text = "\n".join(formats.dot(Network(nodes=[1, 2, 3], consolidators=[1], links=[Link(1, 2, "provider"), Link(2, 3, "peer")], names={3: 'a "b"'})))
        self.assertIn("2 -> 1 [dir=forward]", text)
        self.assertIn("style=dotted", text)
        self.assertIn('label="3 a \\"b\\""', text)

    def test_large_networks_are_cut_by_the_rule(self):
        # a star of 100 around `hub`, and a ring of ten that nothing joins to it
        graph = formats.Graph()
        for leaf in range(100):
            graph.join("hub", f"leaf{leaf}", "customer")
        for node in range(10):
            graph.join(f"ring{node}", f"ring{(node + 1) % 10}", "peer")
        net, told = shaped(graph, 64, 3)
        self.assertEqual((len(net.nodes), len(net.links)), (64, 63))
        self.assertEqual(net.names[1], "hub")
        self.assertIn("64 of 111 nodes", told[0])
        whole = formats.Graph()
        for a in range(1, 65):
            for b in range(a + 1, 65):
                whole.join(str(a), str(b), "any")
        net, told = shaped(whole, 64, 3)
        self.assertEqual(len(net.links), 512)
        self.assertEqual(len({node for link in net.links for node in (link.a, link.b)}), 64)


class Accepted(WithProgram):
    def test_the_program_reads_what_is_written(self):
        for words in (["--generate", "64"], [self.write("rel.txt", AS_REL), "--pref"], [self.write("zoo.graphml", GRAPHML)]):
            code, out, _ = command("network", *words, "--announce", "2")
            self.assertEqual(code, 0)
            self.assertEqual(self.program.replay(out).text.count("rib "), len(schedule.parse(out).network.nodes))


class Places(unittest.TestCase):
    def nets(self):
        yield tiered(64, 1)
        yield tiered(24, 2)
        ring = [Link(node, node % 64 + 1, "any") for node in range(1, 65)]
        yield Network(nodes=list(range(1, 65)), links=ring)
        yield Network(nodes=[1, 2, 3], links=[Link(1, 2, "customer"), Link(2, 3, "customer"), Link(3, 1, "customer")])
        yield Network(nodes=[7])

    def test_nodes_stand_apart_and_inside(self):
        for net in self.nets():
            lay = layout(net)
            for a in net.nodes:
                x, y = lay.places[a]
                self.assertTrue(RADIUS < x < lay.width - RADIUS and RADIUS < y < lay.height - RADIUS)
                for b in net.nodes:
                    if a < b:
                        self.assertGreater(math.dist(lay.places[a], lay.places[b]), 2 * RADIUS)
            for link in net.links:
                for t in range(11):
                    x, y = point(lay.curve(link.a, link.b), t / 10)
                    self.assertTrue(-1 <= x <= lay.width + 1 and -1 <= y <= lay.height + 1)

    def test_customers_stand_below_their_providers(self):
        net = tiered(64, 5)
        lay = layout(net)
        for link in net.links:
            if link.relation == "customer":
                self.assertLess(lay.places[link.a][1], lay.places[link.b][1])

    def test_a_link_bends_around_a_node(self):
        net = Network(nodes=[1, 2, 3, 4], links=[Link(1, 2, "peer"), Link(2, 3, "peer"), Link(1, 3, "peer"), Link(1, 4, "customer")])
        lay = layout(net)
        middle = min(math.dist(point(lay.curve(1, 3), t / 50), lay.places[2]) for t in range(51))
        self.assertGreater(middle, CLEAR - 2)


class Plots(unittest.TestCase):
    def test_they_are_xml_with_all_names(self):
        bars = plot.bars("a < b", "%", ["x", "y"], [("one", "red", [1, 2]), ("two", "blue", [0, 0])])
        lines = plot.lines("c", "", "d", ["1", "2"], [("one", "red", [0, 0])])
        for text in ("\n".join(bars), "\n".join(lines)):
            xml.fromstring(text)
            self.assertIn(">one<", text)

    def test_the_axis_ends_at_a_round_number(self):
        for most, wanted in ((0.07, 0.08), (0.9, 1), (1, 1), (3.5, 4), (26, 30), (100, 100)):
            self.assertAlmostEqual(plot.nice(most), wanted)


if __name__ == "__main__":
    unittest.main()
