"""Networks of other tools: CAIDA's relationships, GraphML, node-link JSON; and a network as DOT and GraphML.

Each reader gives names and links as they stand in the file: what they become in a schedule is decided in `shaping`."""
import bz2
import gzip
import json
import xml.etree.ElementTree as xml
from dataclasses import dataclass, field
from pathlib import Path
from typing import Dict, List, Tuple
from xml.sax.saxutils import escape, quoteattr

from .network import CONVERSE
from .trouble import Trouble


@dataclass
class Graph:
    """Names of nodes in the order of the file, their labels, and links: two names and what the second is to the first."""

    names: List[str] = field(default_factory=list)
    labels: Dict[str, str] = field(default_factory=dict)
    links: List[Tuple[str, str, str]] = field(default_factory=list)

    def add(self, name, label=None):
        if name not in self.labels:
            self.names.append(name)
            self.labels[name] = label or ""

    def join(self, a, b, relation):
        self.add(a)
        self.add(b)
        self.links.append((a, b, relation))


def bytes_of(path):
    try:
        found = Path(path).read_bytes()
        if found[:3] == b"BZh":
            return bz2.decompress(found)
        return gzip.decompress(found) if found[:2] == b"\x1f\x8b" else found
    except (OSError, EOFError, ValueError) as cause:
        raise Trouble(f"cannot read {path}: {cause}") from None


def kind_of(path, content):
    """The format of a file, by what stands in it."""
    front = content.lstrip()[:400]
    if front.startswith(b"<"):
        return "graphml"
    if front.startswith(b"{"):
        return "json"
    lines = [line for line in content[:20000].split(b"\n") if line.strip() and not line.startswith(b"#")]
    if lines and lines[0].count(b"|") >= 2:
        return "as-rel"
    if lines and lines[0].split()[:1] in ([b"node"], [b"link"], [b"prefix"], [b"begin"]):
        return "schedule"
    raise Trouble(f"{path}: neither as-rel, GraphML, node-link JSON nor a schedule; --from says which")


def read_as_rel(content, path, _relation):
    """CAIDA's lines `A|B|-1` (A is a provider of B) and `A|B|0` (they are peers); a fourth field is passed over."""
    graph = Graph()
    for number, line in enumerate(content.decode("utf-8", "replace").splitlines(), 1):
        words = line.split("#", 1)[0].strip().split("|")
        if words == [""]:
            continue
        if len(words) < 3 or words[2] not in ("-1", "0"):
            raise Trouble(f"{path}: line {number}: wanted A|B|-1 or A|B|0, found {line.strip()}")
        graph.join(words[0], words[1], "customer" if words[2] == "-1" else "peer")
    return graph


def read_graphml(content, path, relation):
    """GraphML, as networkx and the Topology Zoo write it. An edge may have a datum `relation`."""
    try:
        root = xml.fromstring(content)
    except xml.ParseError as cause:
        raise Trouble(f"{path}: no XML: {cause}") from None
    keys = {it.get("id"): (it.get("attr.name") or it.get("id")) for it in root.iter() if _tag(it) == "key"}

    def data(element):
        return {keys.get(it.get("key"), it.get("key")): (it.text or "").strip() for it in element if _tag(it) == "data"}

    graph = Graph()
    for it in root.iter():
        if _tag(it) == "node":
            told = data(it)
            graph.add(it.get("id"), told.get("label") or told.get("name"))
    for it in root.iter():
        if _tag(it) == "edge":
            graph.join(it.get("source"), it.get("target"), _relation(data(it), relation, path))
    return graph


def _tag(element):
    return element.tag.rpartition("}")[2]


def read_json(content, path, relation):
    """networkx's node-link JSON: `nodes` with `id`, `links` or `edges` with `source` and `target`, perhaps `relation`."""
    try:
        told = json.loads(content.decode("utf-8"))
        graph = Graph()
        for it in told["nodes"]:
            graph.add(str(it["id"]), str(it.get("label") or it.get("name") or ""))
        for it in told["links"] if "links" in told else told["edges"]:
            graph.join(str(it["source"]), str(it["target"]), _relation(it, relation, path))
    except (ValueError, KeyError, TypeError, UnicodeDecodeError) as cause:
        raise Trouble(f"{path}: no node-link JSON: {type(cause).__name__} {cause}") from None
    return graph


def _relation(told, relation, path):
    found = told.get("relation", relation)
    if found not in CONVERSE:
        raise Trouble(f"{path}: a link has the relation {found}; wanted customer, provider, peer or any")
    return found


READERS = {"as-rel": read_as_rel, "graphml": read_graphml, "json": read_json}


def dot(net):
    """DOT, as Graphviz reads it: from provider to customer, peers dotted."""
    yield "digraph network {"
    for node in net.nodes:
        told = [f"label={json.dumps(str(node) + (' ' + net.names[node] if node in net.names else ''))}"]
        told += ["penwidth=3"] if node in net.consolidators else []
        yield f"  {node} [{', '.join(told)}];"
    for link in net.links:
        a, b = (link.b, link.a) if link.relation == "provider" else (link.a, link.b)
        told = {"peer": "dir=none, style=dotted", "any": "dir=none"}.get(link.relation, "dir=forward")
        yield f"  {a} -> {b} [{told}];"
    yield "}"


def graphml(net):
    """GraphML with the relation of each link: what its target is to its source."""
    yield '<?xml version="1.0" encoding="UTF-8"?>'
    yield '<graphml xmlns="http://graphml.graphdrawing.org/xmlns">'
    yield '  <key id="label" for="node" attr.name="label" attr.type="string"/>'
    yield '  <key id="consolidator" for="node" attr.name="consolidator" attr.type="boolean"/>'
    yield '  <key id="relation" for="edge" attr.name="relation" attr.type="string"/>'
    yield '  <graph edgedefault="undirected">'
    for node in net.nodes:
        data = f'<data key="label">{escape(net.names[node])}</data>' if node in net.names else ""
        data += '<data key="consolidator">true</data>' if node in net.consolidators else ""
        yield f"    <node id={quoteattr(str(node))}>{data}</node>"
    for link in net.links:
        yield f'    <edge source="{link.a}" target="{link.b}"><data key="relation">{link.relation}</data></edge>'
    yield "  </graph>"
    yield "</graphml>"
