"""The network of a session, as the program lists it, and as a drawing."""
from __future__ import annotations

import re
from dataclasses import dataclass

import graphviz

from .errors import Refused, UnknownAnswer
from .program import LOG
from .session import Session

# more modules than a drawing is of use for
MOST_MODULES = 400


@dataclass(frozen=True)
class Module:
    """A module: its path, and what the program says that it is, as its type."""

    path: str
    type: str

    @property
    def name(self) -> str:
        """The last part of its path."""
        return self.path.rpartition(".")[2]


@dataclass(frozen=True)
class Connection:
    """A connection from a gate to a gate, by their paths, and what the program says of its channel."""

    start: str
    end: str
    channel: str = ""


@dataclass(frozen=True)
class Network:
    """The modules and the connections of a network, as it is built at the start of a run."""

    modules: tuple[Module, ...]
    connections: tuple[Connection, ...]


def network_of(session: Session) -> Network | None:
    """Asks a session for its network. Returns None where the program has no commands that list it, or lists it in
    another form than is read here: then a page is without the drawing."""
    try:
        modules = session.listing("list modules")
        connections = session.listing("list connections")
        return Network(tuple(map(module_of, modules)), tuple(map(connection_of, connections)))
    except Refused as refused:
        if refused.name != "Command":
            raise
    except UnknownAnswer as error:
        LOG.warning("the network can't be drawn: %s", error)
    return None


def module_of(line: str) -> Module:
    """Reads a line such as `Net.queue Queue`."""
    path, _, type = line.partition(" ")
    return Module(path, type)


def connection_of(line: str) -> Connection:
    """Reads a line such as `Net.a.out --> Net.b.in`, or `Net.a.out --> Line delay 10ms --> Net.b.in`."""
    parts = re.split(r" --> ", line)
    if len(parts) not in (2, 3):
        raise UnknownAnswer(f"a connection is listed as '{line}'")
    return Connection(parts[0], parts[-1], parts[1] if len(parts) == 3 else "")


def drawing(network: Network) -> str:
    """Draws a network as SVG: compound modules as boxes around what is inside of them, connections with their
    channels."""
    graph = graphviz.Digraph(
        graph_attr={"rankdir": "LR", "bgcolor": "transparent", "fontname": "sans-serif", "pad": "0.1"}
    )
    graph.attr("node", shape="box", style="rounded,filled", fontname="sans-serif", fontsize="11", margin="0.12,0.06")
    graph.attr("edge", fontname="sans-serif", fontsize="9", arrowsize="0.6")
    it = _Drawn(network)
    it.add_inside(graph, "")
    it.add_connections(graph)
    svg = graph.pipe(format="svg", encoding="utf-8")
    return svg[svg.index("<svg") :]


class _Drawn:
    """What is drawn of a network."""

    def __init__(self, network: Network):
        self._modules = network.modules[:MOST_MODULES]
        paths = {it.path for it in self._modules}
        self._compounds = {_around(it) for it in paths}
        self._connections = [it for it in network.connections if {_around(it.start), _around(it.end)} <= paths]
        # (a gate of a compound module is a point at its border)
        self._gates = {
            gate for it in self._connections for gate in (it.start, it.end) if _around(gate) in self._compounds
        }

    def add_inside(self, graph: graphviz.Digraph, around: str) -> None:
        """Adds the modules that stand right inside of another one; the network stands in none."""
        for it in self._modules:
            if _around(it.path) != around:
                continue
            label = f"{it.name}\n{it.type}"
            if it.path not in self._compounds:
                graph.node(_id(it.path), label)
                continue
            with graph.subgraph(
                name=f"cluster_{_id(it.path)}", graph_attr={"label": label, "style": "rounded", "fontsize": "11"}
            ) as inner:
                for gate in sorted(self._gates):
                    if _around(gate) == it.path:
                        inner.node(_id(gate), "", shape="point", width="0.06", tooltip=gate)
                self.add_inside(inner, it.path)

    def add_connections(self, graph: graphviz.Digraph) -> None:
        """Adds the connections whose modules are drawn."""
        for it in self._connections:
            ends = [gate if gate in self._gates else _around(gate) for gate in (it.start, it.end)]
            graph.edge(*map(_id, ends), label=it.channel, tooltip=f"{it.start} to {it.end}")


def _around(path: str) -> str:
    """Returns the path of the module around a module, or of the one that a gate belongs to."""
    return path.rpartition(".")[0]


def _id(path: str) -> str:
    """Returns a name for graphviz: of a path it would take what is behind a colon for a port."""
    return path.replace(":", "_")
