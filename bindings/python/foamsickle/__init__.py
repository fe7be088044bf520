"""Foamsickle from Python: plans tracks between sites, with a proof of how far a plan can be from the cheapest.

    import foamsickle
    plan = foamsickle.plan(graph, [["a", "b", "c"], ["d", "e"]], weight="length")
    plan.edges, plan.cost, plan.floor

A graph is an undirected networkx graph (or multigraph), with any nodes, or a list of triples (node, node, price). Edges
without the weight cost 1, as in networkx; an edge from a node to itself joins nothing and is left out. Prices are whole
numbers from 0 to 100,000,000. A group is a list of nodes that must be joined; a node may be in several.

The proved library does the work: libfoamsickle.so, from the file that FOAMSICKLE_LIBRARY names, the prefix that this
package was installed below, or the repository's target/staticlib.
"""

import ctypes
import ctypes.util
import operator
import os
from collections import namedtuple
from pathlib import Path

__all__ = ["Found", "Moat", "Plan", "Reason", "Refused", "plan", "verify", "version", "why"]

# The limits and lengths of include/foamsickle.h.
MAX_ROUTE = 447
MEMBER_BYTES = 56
VALUE_BYTES = 8
RECORD_BYTES = 64
PLAN_FIGURES = 5
WHY_FIGURES = 6
CHECK_FIGURES = 3
FLOOR_FIGURES = 4
GROUP_NUMBERS = 256

# The words of foamsickle_survey.h, by number.
_WORDS = {
    1: "the survey has no junction, or more than the limit",
    2: "slices that are read side by side differ in length",
    3: "the survey has more tracks than the limit",
    4: "track {} has an end that is no junction",
    5: "track {} leads from a junction to itself",
    6: "the price of track {} is over the limit",
    7: "a buffer to be written is too short",
    8: "no set of tracks joins the members of group {}",
    9: "marks or records have a wrong length",
    10: "the mark of track {} is over the limit",
    11: "the amount of moat {} is 0 or over the limit, or a member is no junction",
    12: "moat {} has no group's members on both sides",
    13: "the moats over track {} are more than twice its price",
    14: "the kept tracks do not join the members of group {}",
    15: "the plan costs more than its moats allow for its number of sites",
    16: "the text is malformed at byte {}",
    17: "the group of junction {} is over the limit",
    18: "pair {} does not rise, or names no junction, no group or the junction's own group",
    19: "there is no track {}",
    20: "the STP text is malformed at byte {}",
    21: "track {} closes a loop with picked tracks of lower number",
    22: "tie {} is out of range, or names a junction that is tied already",
    23: "the table is not whole tracks of twelve bytes",
    24: "the strength of group {} is 0 or over 15, or there are not 255",
    26: "keep line {} names no track, or does not rise",
    27: "moat line {} has a member that is over the limit, or members that do not rise",
    28: "moat line {} is one too many",
}
_FIGURES = ("sites", "cost", "bound")


def _words(number, place):
    if number == 25:
        return f"the plan's {_FIGURES[min(place, 2)]} is not what the checker finds"
    return _WORDS.get(number, f"refused with {number} at {place}").format(place)


class Refused(ValueError):
    """A refusal: its number and its place. Junctions and tracks are numbered from 0 in the graph's order without edges
    from a node to itself, groups from 1 in the order given."""

    def __init__(self, number, place):
        super().__init__(_words(number, place))
        self.number = number
        self.place = place


Moat = namedtuple("Moat", "amount nodes")
Moat.__doc__ = "An amount in half price units, and the set of nodes inside."

Plan = namedtuple("Plan", "edges cost floor sites bound rounds moats")
Plan.__doc__ = """The edges to clear as the graph has them (of a multigraph with keys, of a list the triples), their
cost, and the floor: no set of edges that joins every group costs less. Then the number of sites, the bound in half
price units, the rounds, and the moats that prove it."""

Found = namedtuple("Found", "sites cost bound floor")
Found.__doc__ = "What the checker found of a plan, and the floor, found anew from the graph."

Reason = namedtuple("Reason", "mark group ends route round")
Reason.__doc__ = """Why an edge is in the plan or is not. Mark 'kept': without it the two nodes `ends` of the group (its
index) are parted; `route` has the edges between them. 'dropped': it was picked, and no group needs it. 'unpicked': its
ends were joined after this round, or never for 0."""


def _library():
    here = Path(__file__).resolve().parents[3]
    named = os.environ.get("FOAMSICKLE_LIBRARY")
    places = [named] if named else [here / "libfoamsickle.so", here / "target" / "staticlib" / "libfoamsickle.so"]
    found = next((str(place) for place in places if Path(place).exists()), None)
    found = found or (None if named else ctypes.util.find_library("foamsickle"))
    if found is None:
        raise ImportError("libfoamsickle.so is not there: ./install in Foamsickle's repository builds and installs it, "
                          "or FOAMSICKLE_LIBRARY names its file")
    library = ctypes.CDLL(found)
    library.foamsickle_version.restype = ctypes.c_uint64
    if library.foamsickle_version() // 10000 != 1:
        raise ImportError(f"{found} has version {library.foamsickle_version()}; this package is for 1.x")
    return library


_LIBRARY = _library()


def version():
    """The library's version: 10,000 times its first number, plus 100 times its second, plus its third."""
    return _LIBRARY.foamsickle_version()


def _array(kind, values):
    return (kind * len(values))(*values)


def _call(name, *arguments):
    """A call with arrays, each of which crosses as a pointer and its length, and numbers."""
    function = getattr(_LIBRARY, name)
    function.restype = ctypes.c_uint64
    crossing = []
    for x in arguments:
        crossing += [x, ctypes.c_size_t(len(x))] if isinstance(x, ctypes.Array) else [x]
    answer = function(*crossing)
    if answer:
        raise Refused(answer % 256, answer // 256)


def _whole(price, edge):
    try:
        whole = operator.index(price)
    except TypeError:
        try:
            whole = int(price)
        except (TypeError, ValueError, OverflowError):
            whole = -1
        whole = whole if whole == price else -1
    if not 0 <= whole < 2**32:
        raise ValueError(f"the price of {edge!r} is {price!r}: prices are whole numbers from 0 to 100,000,000")
    return whole


class _Survey:
    """A graph and its groups as the library's arrays."""

    def __init__(self, graph, groups, weight):
        if hasattr(graph, "edges") and hasattr(graph, "nodes"):
            if graph.is_directed():
                raise ValueError("the graph is directed: tracks are walked either way")
            keys = graph.is_multigraph()
            nodes = list(graph.nodes)
            every = graph.edges(keys=True, data=True) if keys else graph.edges(data=True)
            priced = [(tuple(row[:-1]), row[-1].get(weight, 1)) for row in every]
        else:
            triples = [tuple(row) for row in graph]
            nodes = list(dict.fromkeys(node for row in triples for node in row[:2]))
            priced = [(row, row[2]) for row in triples]
        priced = [(edge, price) for edge, price in priced if edge[0] != edge[1]]
        self.nodes = nodes
        self.edges = [edge for edge, _ in priced]
        number = {node: i for i, node in enumerate(nodes)}
        own, pairs = [0] * len(nodes), []
        groups = [list(dict.fromkeys(group)) for group in groups]
        if len(groups) >= GROUP_NUMBERS:
            raise ValueError(f"there are {len(groups)} groups, and at most {GROUP_NUMBERS - 1} are taken")
        for i, group in enumerate(groups, 1):
            for node in group:
                if node not in number:
                    raise ValueError(f"{node!r} of a group is no node of the graph")
                if own[number[node]]:
                    pairs.append((number[node], i))
                else:
                    own[number[node]] = i
        pairs.sort()
        self.slices = (
            _array(ctypes.c_uint8, own),
            _array(ctypes.c_uint32, [number[edge[0]] for edge in self.edges]),
            _array(ctypes.c_uint32, [number[edge[1]] for edge in self.edges]),
            _array(ctypes.c_uint32, [_whole(price, edge) for edge, price in priced]),
            _array(ctypes.c_uint32, [owner for owner, _ in pairs]),
            _array(ctypes.c_uint8, [group for _, group in pairs]),
        )

    def number_of(self, edge):
        """The number of an edge, given from either end."""
        edge = tuple(edge)
        for i, known in enumerate(self.edges):
            if edge in (known, (known[1], known[0]) + known[2:]):
                return i
        raise ValueError(f"{edge!r} is no edge of the graph")

    def moat(self, record):
        members = int.from_bytes(record[VALUE_BYTES:], "little")
        inside = frozenset(node for i, node in enumerate(self.nodes) if members >> i & 1)
        return Moat(int.from_bytes(record[:VALUE_BYTES], "little"), inside)

    def record(self, moat):
        amount, inside = moat
        number = {node: i for i, node in enumerate(self.nodes)}
        if any(node not in number for node in inside):
            raise ValueError("a moat has a node that is none of the graph")
        members = sum(1 << number[node] for node in set(inside))
        return amount.to_bytes(VALUE_BYTES, "little") + members.to_bytes(MEMBER_BYTES, "little")


def _floor(survey):
    """Below what no set of edges that joins every group costs: from the survey alone, by directed cuts."""
    counts = (ctypes.c_uint64 * FLOOR_FIGURES)()
    _call("foamsickle_floor", *survey.slices, counts)
    return counts[0]


def plan(graph, groups, weight="weight"):
    """The plan of a graph that joins every group: at most 2 - 2/k times the cost of the cheapest, k being the sites."""
    survey = _Survey(graph, groups, weight)
    marks = (ctypes.c_uint8 * len(survey.edges))()
    records = (ctypes.c_uint8 * (RECORD_BYTES * max(2 * len(survey.nodes) - 1, 0)))()
    counts = (ctypes.c_uint64 * PLAN_FIGURES)()
    _call("foamsickle_plan", *survey.slices, marks, records, counts)
    sites, cost, bound, rounds, moats = counts
    data = bytes(records)
    return Plan(
        [edge for edge, mark in zip(survey.edges, marks) if mark == 2], cost, _floor(survey), sites, bound, rounds,
        [survey.moat(data[RECORD_BYTES * i:RECORD_BYTES * (i + 1)]) for i in range(moats)])


def verify(graph, groups, plan, weight="weight"):
    """Checks a plan, whoever drew it: its edges, its moats and its figures. What the checker finds, or a refusal: 25
    for a figure (place 0 sites, 1 cost, 2 bound) that is another. Of whatever passes the accuracy is proved."""
    survey = _Survey(graph, groups, weight)
    marks = (ctypes.c_uint8 * len(survey.edges))()
    for edge in plan.edges:
        marks[survey.number_of(edge)] = 2
    records = _array(ctypes.c_uint8, b"".join(survey.record(moat) for moat in plan.moats))
    counts = (ctypes.c_uint64 * CHECK_FIGURES)()
    _call("foamsickle_check", *survey.slices, marks, records, counts)
    sites, cost, bound = counts
    for place, (said, found) in enumerate(zip((plan.sites, plan.cost, plan.bound), counts)):
        if said != found:
            raise Refused(25, place)
    floor = _floor(survey)
    if plan.floor != floor:
        raise ValueError(f"the plan's floor is {plan.floor}, and {floor} is found")
    return Found(sites, cost, bound, floor)


def why(graph, groups, edge, weight="weight"):
    """Why an edge is in the plan, or is not."""
    survey = _Survey(graph, groups, weight)
    route = (ctypes.c_uint32 * MAX_ROUTE)()
    counts = (ctypes.c_uint64 * WHY_FIGURES)()
    _call("foamsickle_why", *survey.slices, ctypes.c_uint32(survey.number_of(edge)), route, counts)
    mark, group, smaller, larger, tracks, joined = counts
    if mark == 2:
        ends = (survey.nodes[smaller], survey.nodes[larger])
        return Reason("kept", group - 1, ends, [survey.edges[e] for e in route[:tracks]], None)
    if mark == 1:
        return Reason("dropped", None, None, None, None)
    return Reason("unpicked", None, None, None, joined)
