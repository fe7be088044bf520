"""Tests of the Python package against the shared library: python3 bindings/python/tests.py. With networkx where that is
installed; `words` prints the words of every refusal's number, for comparison with the other languages."""

import random
import re
import sys
import unittest
from fractions import Fraction
from pathlib import Path

sys.path.insert(0, str(Path(__file__).resolve().parent))
import foamsickle  # noqa: E402

try:
    import networkx
except ImportError:
    networkx = None

P3 = [("a", "b", 3), ("b", "c", 4)]
HEADER = Path(__file__).resolve().parents[2] / "include" / "foamsickle.h"


class Lists(unittest.TestCase):
    def refused(self, number, place, call, *arguments):
        with self.assertRaises(foamsickle.Refused) as caught:
            call(*arguments)
        self.assertEqual((caught.exception.number, caught.exception.place), (number, place))
        return str(caught.exception)

    def test_p3(self):
        plan = foamsickle.plan(P3, [["a", "c"]])
        self.assertEqual(plan.edges, P3)
        self.assertEqual((plan.cost, plan.floor, plan.sites, plan.bound, plan.rounds), (7, 7, 2, 14, 2))
        self.assertEqual(plan.moats, [(6, {"a"}), (7, {"c"}), (1, {"a", "b"})])
        self.assertEqual(foamsickle.verify(P3, [["a", "c"]], plan), (2, 7, 14, 7))

    def test_forged_plans(self):
        plan = foamsickle.plan(P3, [["a", "c"]])
        check = lambda **changed: (foamsickle.verify, P3, [["a", "c"]], plan._replace(**changed))
        self.refused(14, 1, *check(edges=P3[:1]))
        self.refused(15, 0, *check(moats=plan.moats[:2]))
        self.refused(13, 0, *check(moats=plan.moats + [(1, {"a"})]))
        self.refused(25, 1, *check(cost=6))
        self.refused(25, 2, *check(bound=13))
        with self.assertRaises(ValueError):
            foamsickle.verify(P3, [["a", "c"]], plan._replace(floor=6))
        with self.assertRaises(ValueError):
            foamsickle.verify(P3, [["a", "c"]], plan._replace(edges=[("a", "c", 1)]))

    def test_floor_above_half_the_bound(self):
        # P9: three sites round a junction; half the bound is 7.5, and no set costs less than 9.
        wheel = [(0, 1, 3), (0, 2, 3), (0, 3, 3), (1, 2, 5), (1, 3, 5), (2, 3, 5)]
        plan = foamsickle.plan(wheel, [[1, 2, 3]])
        self.assertEqual((plan.cost, plan.floor, plan.bound), (10, 9, 15))

    def test_why(self):
        edges = [(0, 1, 3), (0, 2, 1), (0, 3, 1), (2, 3, 9), (4, 5, 9)]
        why = lambda edge: foamsickle.why(edges, [[0, 1]], edge)
        self.assertEqual(why((0, 1, 3)), ("kept", 0, (0, 1), [(0, 1, 3)], None))
        self.assertEqual(why((2, 0, 1)).mark, "dropped")
        self.assertEqual(why((2, 3, 9)), ("unpicked", None, None, None, 2))
        self.assertEqual(why((4, 5, 9)).round, 0)

    def test_several_groups_of_a_node(self):
        plan = foamsickle.plan(P3, [["a", "b"], ["b", "c"]])
        self.assertEqual((plan.sites, plan.cost, plan.bound), (3, 7, 11))

    def test_refusals(self):
        said = self.refused(8, 2, foamsickle.plan, [(0, 1, 1), (2, 3, 1)], [[0, 1], [1, 2]])
        self.assertEqual(said, "no set of tracks joins the members of group 2")
        self.refused(1, 0, foamsickle.plan, [], [])
        self.refused(6, 0, foamsickle.plan, [(0, 1, 100000001)], [[0, 1]])
        self.refused(3, 0, foamsickle.plan, [(0, 1, 1)] * 2049, [[0, 1]])

    def test_what_is_no_survey(self):
        prices = [1.5, -1, float("nan"), float("inf"), None, "5"]
        for edges, groups in [([(0, 1, price)], []) for price in prices] + [(P3, [["a", "z"]]), (P3, [["a"]] * 256)]:
            with self.assertRaises(ValueError):
                foamsickle.plan(edges, groups)

    def test_prices_that_are_whole(self):
        self.assertEqual(foamsickle.plan([(0, 1, 5.0), (0, 0, 1), (1, 2, True)], [[0, 2]]).cost, 6)

    def test_constants(self):
        text = HEADER.read_text()
        values = {}
        for name, body in re.findall(r"^#define FOAMSICKLE_(\w+) +(\(?[\w ()*/+-]+)$", text, re.M):
            values[name] = eval(re.sub(r"FOAMSICKLE_", "", body).replace("/", "//"), {}, dict(values))
        for name in ["MAX_ROUTE", "MEMBER_BYTES", "VALUE_BYTES", "RECORD_BYTES", "PLAN_FIGURES", "WHY_FIGURES",
                     "CHECK_FIGURES", "GROUP_NUMBERS"]:
            self.assertEqual(getattr(foamsickle, name), values[name], name)
        self.assertEqual(foamsickle.version(), values["VERSION"])


@unittest.skipUnless(networkx, "networkx is not installed")
class Networkx(unittest.TestCase):
    def test_labels_and_weights(self):
        graph = networkx.Graph()
        graph.add_edge((0, "north"), "hut", length=3)
        graph.add_edge("hut", 3.5, length=4)
        graph.add_node("alone")
        plan = foamsickle.plan(graph, [[(0, "north"), 3.5]], weight="length")
        self.assertEqual((len(plan.edges), plan.cost, plan.floor), (2, 7, 7))
        self.assertTrue(all(graph.has_edge(*edge) for edge in plan.edges))
        self.assertEqual(foamsickle.plan(graph, [[(0, "north"), 3.5]]).cost, 2)
        self.assertEqual(foamsickle.why(graph, [[(0, "north"), "hut"]], ("hut", (0, "north"))).mark, "kept")

    def test_multigraph(self):
        graph = networkx.MultiGraph()
        graph.add_edge(0, 1, key="dear", weight=9)
        graph.add_edge(0, 1, key="cheap", weight=2)
        plan = foamsickle.plan(graph, [[0, 1]])
        self.assertEqual((plan.edges, plan.cost), ([(0, 1, "cheap")], 2))
        self.assertEqual(foamsickle.verify(graph, [[0, 1]], plan).cost, 2)
        self.assertEqual(foamsickle.why(graph, [[0, 1]], (1, 0, "dear")).mark, "unpicked")

    def test_directed(self):
        with self.assertRaises(ValueError):
            foamsickle.plan(networkx.DiGraph([(0, 1)]), [])

    def test_costs_beside_steiner_tree(self):
        """One group on 200 graphs: the floor is at most what networkx finds, and the plan within 2 - 2/k of it."""
        chance = random.Random(1)
        compared = {method: [0, 0, 0] for method in ("kou", "mehlhorn")}
        for _ in range(200):
            n = chance.randint(5, 40)
            graph = networkx.gnm_random_graph(n, min(3 * n, n * (n - 1) // 2), seed=chance.randrange(2**32))
            networkx.add_path(graph, range(n))
            for u, v in graph.edges:
                graph[u][v]["weight"] = chance.randint(1, 100)
            sites = chance.sample(range(n), chance.randint(2, min(n, 10)))
            plan = foamsickle.plan(graph, [sites])
            self.assertEqual(foamsickle.verify(graph, [sites], plan).cost, plan.cost)
            kept = networkx.Graph(plan.edges)
            self.assertTrue(all(networkx.has_path(kept, sites[0], v) for v in sites))
            self.assertEqual(sum(graph[u][v]["weight"] for u, v in plan.edges), plan.cost)
            for method, found in compared.items():
                tree = networkx.algorithms.approximation.steiner_tree(graph, sites, method=method)
                cost = tree.size(weight="weight")
                self.assertLessEqual(plan.floor, cost)
                self.assertLessEqual(plan.cost, (2 - Fraction(2, len(sites))) * Fraction(cost))
                found[(plan.cost > cost) - (plan.cost < cost)] += 1
        for method, (equal, dearer, cheaper) in compared.items():
            print(f"200 plans beside networkx, {method}: {equal} cost the same, {cheaper} less, {dearer} more")


if __name__ == "__main__":
    if sys.argv[1:] == ["words"]:
        for number in range(1, 32):
            for place in (0, 5):
                print(foamsickle.Refused(number, place))
    else:
        if networkx is None:
            print("networkx is not installed: the package was tested without it")
        unittest.main()
