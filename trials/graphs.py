"""A reader of the graphs that `draw` writes, and what there is to say of a net without the program."""

import re
from collections import Counter
from typing import NamedTuple

from known import name_text

HEAD = ["graph net {", "node [shape=plaintext, width=0, height=0]", "edge [arrowsize=0.7]"]
AGENT = re.compile(r'A(\d+) \[shape=record, label="\{<0>([A-Z0-9]\w*)((?:\|\{<1>1?(?:\|<\d+>\d*)*\})?)\}"\]')
JOINT = re.compile(r"J(\d+) \[shape=point, width=0.05, height=0.05\]")
EDGE = re.compile(r"(\S+?)(:[ns])? -- (\S+?)(:[ns])?(?: \[dir=(\w+)(, penwidth=3|, style=dashed)?\])?")
HEADS = {None: (False, False), "forward": (False, True), "back": (True, False), "both": (True, True)}


class Edge(NamedTuple):
    ends: tuple
    heads: tuple
    is_thick: bool
    is_dashed: bool = False


class Graph(NamedTuple):
    """Each agent with its symbol and arity, how many points there are, and the edges, all in order."""

    agents: list
    joints: int
    edges: list

    @property
    def thick(self):
        return sum(it.is_thick for it in self.edges)


def graph_of(text):
    """The graph in a text of `draw`. What isn't written as `draw` writes it is a `ValueError`."""
    lines = text.split("\n")
    if lines[:3] != HEAD or lines[-2:] != ["}", ""]:
        raise ValueError(f"no graph: {text[:200]}")
    graph = Graph([], 0, [])
    for line in lines[3:-2]:
        if found := AGENT.fullmatch(line):
            ports = [str(i + 1) for i in range(found[3].count("<"))]
            told = ports if len(ports) > 2 else [""] * len(ports)
            if graph.joints or graph.edges or int(found[1]) != len(graph.agents):
                raise ValueError(f"no agent: {line}")
            if re.findall(r"<(\d+)>(\d*)", found[3]) != list(zip(ports, told)):
                raise ValueError(f"no ports: {line}")
            graph.agents.append((found[2], len(ports)))
        elif found := JOINT.fullmatch(line):
            if graph.edges or int(found[1]) != graph.joints:
                raise ValueError(f"no point: {line}")
            graph = graph._replace(joints=graph.joints + 1)
        elif found := EDGE.fullmatch(line):
            ends, style = (found[1], found[3]), found[6] or ""
            sides = (":n", ":s") if ends[0].endswith(":0") else (":s", ":n") if ends[1].endswith(":0") else (":s", ":s")
            is_loop = len({it.partition(":")[0] for it in ends}) == 1 and ends[0][0] == "A"
            if (found[2], found[4]) != (sides if is_loop else (None, None)):
                raise ValueError(f"sides of a wire: {line}")
            graph.edges.append(Edge(ends, HEADS[found[5]], "penwidth" in style, "dashed" in style))
        else:
            raise ValueError(f"no line of a graph: {line}")
    return graph


def faults_of(graph):
    """What is wrong with a graph as a net: ports that are no end, or ends of several wires, and arrow heads."""
    ends = Counter(end for edge in graph.edges for end in edge.ends)
    wanted = Counter(f"A{k}:{i}" for k, (_, arity) in enumerate(graph.agents) for i in range(arity + 1))
    wanted.update({f"J{j}": 2 for j in range(graph.joints)})
    places = sum(end[0] == "I" for end in ends)
    wanted.update(f"I{i + 1}" for i in range(places))
    wanted.update(end for end in ends if re.fullmatch(r"[a-z]\d*", end))
    faults = [f"{end}: {wanted[end]} ends, came {ends[end]}" for end in {*ends, *wanted} if ends[end] != wanted[end]]
    faults += [f"heads of {it}" for it in graph.edges if it.heads != tuple(end.endswith(":0") for end in it.ends)]
    return faults


def configuration_of(graph):
    """A configuration that has this graph: each wire has a name, and each agent and each point an equation of its own."""
    name = {}
    for number, edge in enumerate(graph.edges):
        for end in edge.ends:
            name.setdefault(end, []).append(name_text(number))
    places = sum(end[0] == "I" for end in name)
    equations = [f"{a}={b}" for a, b in (name[f"J{j}"] for j in range(graph.joints))]
    for k, (symbol, arity) in enumerate(graph.agents):
        ports = ",".join(name[f"A{k}:{i + 1}"][0] for i in range(arity))
        equations.append(f"{name[f'A{k}:0'][0]}={symbol}" + (f"({ports})" if arity else ""))
    return f"<{','.join(name[f'I{i + 1}'][0] for i in range(places))}|{','.join(equations)}>"


def shape_of(graph):
    """The graph but for the numbers of its agents and points, the order and direction of its edges and its free names: two
    graphs have one shape where one is the other so. What hangs at no place of the interface stands in any order."""
    other = {}
    for edge in graph.edges:
        (a, b), thick = edge.ends, edge.is_thick
        other.setdefault(a, []).append((b, thick))
        other.setdefault(b, []).append((a, thick))

    def ports(vertex):
        if vertex[0] == "A":
            return [f"{vertex}:{i}" for i in range(graph.agents[int(vertex[1:])][1] + 1)]
        return [vertex]

    def walk(start):
        """What is met from a vertex on, port by port, and which vertices are."""
        numbers, told, due = {}, [], [start]
        while due:
            vertex = due.pop()
            if vertex in numbers:
                continue
            numbers[vertex] = len(numbers)
            kind = graph.agents[int(vertex[1:])][0] if vertex[0] == "A" else vertex if vertex[0] == "I" else vertex[0] if vertex[0] == "J" else "free"
            met = [(end, thick) for port in ports(vertex) for end, thick in other[port]]
            told.append((vertex, kind, met))
            due += [end.partition(":")[0] for end, _ in reversed(met)]
        text = [(kind, [(numbers[end.partition(":")[0]], end.partition(":")[2], thick) for end, thick in met]) for _, kind, met in told]
        return repr(text), set(numbers)

    rooted, shapes, seen = [], [], set()
    starts = {end.partition(":")[0] for end in other}
    for start in sorted((it for it in starts if it[0] == "I"), key=lambda it: int(it[1:])):
        text, met = walk(start)
        rooted.append(text)
        seen |= met
    for start in sorted(starts):
        if start not in seen:
            text, met = walk(start)
            seen |= met
            shapes.append(min(walk(it)[0] for it in met))
    return rooted, sorted(shapes)
