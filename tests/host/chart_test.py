"""Tests of the picture of a whole host."""
import itertools
import re
import unittest

import crowded
import example
from shown import made
from zirofen_host.show import chart, view
from zirofen_host.show.chart import Rectangle, laid_out
from zirofen_host.show.finding import Place

RECTANGLE = re.compile(r'<rect class="([a-z -]+)" x="(-?\d+)" y="(-?\d+)" width="(\d+)" height="(\d+)"')


def drawn(report, size="wide"):
    width, height = {name: (width, height) for name, width, height in chart.SIZES}[size]
    return chart.Drawn(chart.Chart(view.host_of(made(report)), Place("host-1", True)), width, height)


class LaidOutTest(unittest.TestCase):
    def test_boxes_fill_the_room_in_proportion_and_apart(self):
        for weights in ([1], [5, 3, 1], [1] * 100, [2.0 ** -each for each in range(20)], [750 ** 0.6, *[3] * 30]):
            for room in (Rectangle(0, 0, 960, 500), Rectangle(7, 9, 30, 400)):
                boxes = laid_out(weights, room)
                self.assertEqual(len(boxes), len(weights))
                for weight, box in zip(weights, boxes):
                    self.assertAlmostEqual(box.width * box.height, room.width * room.height * weight / sum(weights), 4)
                    self.assertGreaterEqual(min(box.left - room.left, box.top - room.top), -1e-6)
                    self.assertLess(max(box.left + box.width - room.left - room.width, box.top + box.height - room.top - room.height), 1e-6)
                for one, other in itertools.combinations(boxes, 2):
                    across = min(one.left + one.width, other.left + other.width) - max(one.left, other.left)
                    along = min(one.top + one.height, other.top + other.height) - max(one.top, other.top)
                    self.assertLess(min(across, along), 1e-6)


class ChartTest(unittest.TestCase):
    def test_an_example_host(self):
        svg = drawn(example.kept()).svg("name", "wide")
        kinds = [kind for kind, *_ in RECTANGLE.findall(svg)]
        self.assertEqual({kind: kinds.count(kind) for kind in set(kinds) - {"box"}}, {
            "edge escapes": 2, "edge unsettled": 1, "edge contained": 3, "box opened": 1, "box not-asked": 1})
        self.assertEqual((svg.count('class="arrow"'), svg.count('class="head"')), (2, 2))
        self.assertIn("The host&#x27;s 29 cgroups as boxes in one another: 6 delegations, 3 shown to be contained; 2 arrows of escapes.",
                      svg)
        self.assertIn(">9 others</text>", svg)

    def test_an_arrow_goes_from_where_a_process_is_to_where_it_goes(self):
        made_ = drawn(example.kept())
        move = next(arrow for arrow in made_.chart.arrows if arrow.before != arrow.behind)
        self.assertEqual(move, ("/user.slice/user-1000.slice/session-2.scope", "/user.slice/user-1000.slice/user@1000.service/init.scope"))
        x, y = map(float, re.search(r'd="M([0-9.]+) ([0-9.]+)L', made_.arrow(move)).groups())
        to_x, to_y = map(float, re.search(r'class="head" d="M([0-9.]+) ([0-9.]+)L', made_.arrow(move)).groups())
        for at, (left, top, width, height) in (((x, y), made_.places[move.before]), ((to_x, to_y), made_.places[move.behind])):
            self.assertTrue(left < at[0] < left + width and top < at[1] < top + height)
        # a limit of one's own: to the edge of the box, and into no neighbour
        own = next(arrow for arrow in made_.chart.arrows if arrow.before == arrow.behind)
        to_y = float(re.search(r'class="head" d="M[0-9.]+ ([0-9.]+)L', made_.arrow(own)).group(1))
        _, top, _, height = made_.places[own.before]
        self.assertTrue(top + height / 2 < to_y < top + height)

    def test_boxes_stay_in_their_picture_and_each_delegation_has_one(self):
        for report in (example.kept(), crowded.report(300), crowded.report(100, 95, 15)):
            for size, width, height in chart.SIZES:
                made_ = drawn(report, size)
                for _, left, top, wide, high in RECTANGLE.findall(made_.svg("name", size)):
                    self.assertGreaterEqual(min(int(left), int(top)), 0)
                    self.assertLessEqual((int(left) + int(wide) <= width, int(top) + int(high) <= height), (True, True))
                for path in made_.chart.host.delegations:
                    self.assertGreater(made_.place(path).width, 0)
                self.assertLess(len(made_.svg("name", size)), 150_000)

    def test_what_is_alike_stands_together_and_what_isnt_alone(self):
        made_ = drawn(crowded.report(300))
        svg = made_.svg("name", "wide")
        self.assertIn("150 contained</text>", svg)
        kinds = [kind for kind, *_ in RECTANGLE.findall(svg)]
        self.assertEqual([kinds.count(f"edge {kind}") for kind in ("escapes", "opened", "unsettled", "fault")], [10, 5, 5, 5])
        self.assertEqual(svg.count('class="arrow"'), 10)
        self.assertEqual(len(drawn(crowded.report(2000)).chart.arrows), chart.MOST_ARROWS)

    def test_no_delegation_has_no_picture(self):
        report = {**example.kept(), **{key: [] for key in ("subtrees", "entries", "opened", "above")}}
        self.assertEqual(chart.html(view.host_of(made(report)), Place("host-1", True)), "")


if __name__ == "__main__":
    unittest.main()
