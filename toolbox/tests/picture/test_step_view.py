"""Pictures of steps: what is asked again, what is kept, and what stays where it is."""
import json
from unittest import mock

from bgptools.convergence.run import Run
from bgptools.picture import step_view
from bgptools.picture.observation import Known
from bgptools.picture.step_view import Ground, Viewer
from bgptools.program.mistakes import Mistake
from bgptools.program.script import read
from common import EXAMPLES, TOP, Case

THREE = TOP / "toolbox" / "lessons" / "three-ases.bgp"
PREFIX = "203.0.113.0/24"


def accepted(path):
    """The lines of a script that are accepted, and a delivery wherever one can be, as a shared network has them."""
    with Run() as run:
        for line in read(str(path)):
            run.say(line.text)
            for way in run.deliverer.suspects[:2]:
                run.say("deliver %s %s" % way)
        return list(run.lines), sorted(run.network.prefixes), run.network.routers()


def ring(count, asn=5):
    """Routers of some ASes in a ring, each with a session to the next one."""
    names = ["10.0.%d.1" % number for number in range(count)]
    pairs = list(zip(names, names[1:] + names[:1]))
    return (["router %s %d" % (name, at // asn + 1) for at, name in enumerate(names)]
            + ["link %s %s 1" % pair for pair in pairs] + ["join %s %s" % pair for pair in pairs]
            + ["origin %s 10.9.0.0/16" % names[0]])


def routers_in(picture):
    """The routers of a picture."""
    return sorted(about[1] for about, _ in picture["parts"] if about[:1] == ["router"])


class Viewed(Case):
    def viewer(self):
        made = Viewer()
        self.addCleanup(made.close)
        return made

    def test_what_was_told_before_is_what_would_be_told_anew(self):
        """Each step of many scripts, forward and back, is as it is where nothing was known before."""
        count = 0
        for path in [path for path in EXAMPLES if path.stat().st_size < 2500][:6] + [THREE]:
            lines, prefixes, routers = accepted(path)
            if not prefixes or not routers or len(lines) > 80:
                continue
            viewer, steps = self.viewer(), list(range(len(lines) + 1))
            for at, step in enumerate(steps + steps[::-7]):
                to = prefixes[at // 20 % len(prefixes)]
                asked = (lines, step, to, (routers[0], to.split("/")[0]))
                found = viewer.picture(*asked)
                self.assertEqual(found, self.anew(viewer, asked), (str(path), step))
                count += 1
            fresh = self.viewer()
            fresh.ground = viewer.ground
            self.assertEqual(fresh.picture(*asked), found, str(path))
        self.assertGreater(count, 100)

    def anew(self, viewer, asked):
        """The picture where the run told nothing before."""
        stand = viewer.parked.stands[-1]
        kept, stand.known = stand.known, Known()
        viewer.pictures.clear()
        found = viewer.picture(*asked)
        stand.known = kept
        return found

    def test_a_step_forth_asks_what_its_command_can_have_changed(self):
        """A delivery changes its receiver alone, and a metric its AS: the other routers are not asked again."""
        lines = ring(20) + ["deliver 10.0.0.1 10.0.1.1", "metric 10.0.10.1 10.0.11.1 7"]
        viewer = self.viewer()
        viewer.picture(lines, len(lines) - 2, "10.9.0.0/16", None)
        run = viewer.parked.stands[-1].run
        for step, routers in ((len(lines) - 1, {"10.0.1.1"}), (len(lines), {"10.0.%d.1" % at for at in range(10, 15)})):
            asked = []
            with mock.patch.object(run.program, "heard", lambda line, _, asked=asked: asked.append(line.split(" "))):
                viewer.picture(lines, step, "10.9.0.0/16", None)
            self.assertEqual({words[1] for words in asked if words[0] == "best"}, routers)
            ways = {tuple(words[1:]) for words in asked if words[0] == "queue"}
            self.assertTrue(ways and all(not routers.isdisjoint(way) for way in ways), ways)

    def test_runs_are_few_and_those_of_another_script_are_not_taken(self):
        viewer, lines = self.viewer(), ring(6)
        for step in range(len(lines), 0, -2):
            viewer.picture(lines, step, None, None)
        self.assertLessEqual(len(viewer.parked.stands), 4)
        other = ["router 10.0.0.1 7", "router 10.0.1.1 8", "link 10.0.0.1 10.0.1.1 5"]
        shown = json.loads(viewer.picture(other, 3, None, None))
        self.assertEqual((routers_in(shown), shown["reply"]), (["10.0.0.1", "10.0.1.1"], "ok"))

    def test_so_many_bytes_of_pictures_are_kept(self):
        """And those that were looked at last."""
        viewer, lines = self.viewer(), ring(6)
        last = len(lines)
        with mock.patch.object(step_view, "KEPT", 3 * len(viewer.picture(lines, last, None, None))):
            for step in (last - 1, last - 2, last, last - 3, last - 4):
                viewer.picture(lines, step, None, None)
                self.assertEqual(viewer.size, sum(map(len, viewer.pictures.values())))
                self.assertLessEqual(viewer.size, step_view.KEPT)
        self.assertIn((last, None, None), viewer.pictures)
        self.assertNotIn((last - 1, None, None), viewer.pictures)

    def test_a_program_that_has_ended_is_not_asked_again(self):
        viewer, lines = self.viewer(), ring(4)
        wanted = viewer.picture(lines, len(lines), "10.9.0.0/16", None)
        viewer.pictures.clear()
        process = viewer.parked.stands[-1].run.program.process
        process.kill()
        process.wait()
        self.assertRaises(Mistake, viewer.picture, lines, len(lines), "10.9.0.0/16", None)
        self.assertEqual(viewer.picture(lines, len(lines), "10.9.0.0/16", None), wanted)


class Stays(Case):
    def grown(self, lines, more):
        """Where all stands with these lines, and then with more."""
        ground = Ground()
        ground.take(lines)
        before = {a: (box.x, box.y) for a, box in ground.staying.spots.items()}
        self.assertTrue(ground.take(lines + more))
        return before, ground

    def test_routers_stay_when_links_and_sessions_come(self):
        before, ground = self.grown(ring(20), ["link 10.0.3.1 10.0.16.1 4", "join 10.0.3.1 10.0.16.1",
                                               "join 10.0.5.1 10.0.7.1"])
        self.assertEqual({a: (box.x, box.y) for a, box in ground.staying.spots.items()}, before)
        self.assertIn(("10.0.3.1", "10.0.16.1", True), ground.drawing.curves)

    def test_a_router_of_an_as_that_is_there_stands_in_it(self):
        _, ground = self.grown(ring(20), ["router 10.9.0.1 2", "link 10.9.0.1 10.0.7.1 1"])
        self.apart(ground)
        near = sorted(ground.staying.spots, key=lambda a: self.between(ground, "10.9.0.1", a))
        self.assertIn("10.0.7.1", near[:4])

    def test_an_as_that_comes_stands_beside_its_neighbour_and_takes_nobodys_place(self):
        more = [line for at in range(6) for line in (
            "router 10.9.%d.1 %d" % (at, 90 + at), "link 10.9.%d.1 10.0.%d.1 1" % (at, at))]
        before, ground = self.grown(ring(20), more)
        self.apart(ground)
        stay = sum((box.x, box.y) == before.get(a) for a, box in ground.staying.spots.items())
        self.assertGreater(stay, 10)

    def test_a_name_that_is_broad_has_room(self):
        before, ground = self.grown(ring(10), ["# name 10.0.2.1 " + "a-name-of-many-letters" * 2])
        self.assertGreater(ground.staying.spots["10.0.2.1"].width, 300)
        self.assertEqual(len(before), 10)
        self.apart(ground)

    def between(self, ground, one, other):
        """How far two are apart."""
        (a, b) = (ground.staying.spots[each] for each in (one, other))
        return (a.x - b.x) ** 2 + (a.y - b.y) ** 2

    def apart(self, ground):
        """No box of a router meets another one, and no box of an AS another one."""
        layout = ground.drawing.layout
        for boxes in (layout.spots, layout.groups):
            for one in boxes:
                self.assertEqual([other for other in boxes if other != one and boxes[one].meets(boxes[other])], [])
