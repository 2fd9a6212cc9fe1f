"""The interface for Python: each call says what the program says, and as data the same as the tools."""
import ast
import dataclasses
import doctest
import importlib.util
import inspect
import json
import os
import re
import shutil
import sys
import unittest
from unittest import mock

import bgptools
from bgptools import (
    Cost, Delivery, Effect, Link, Message, Mistake, Network, Node, Reason, Refusal, Route, Session, NotConverged
)
from bgptools.api import commands, effect, network as interface, values
from bgptools.program import language, line_count
from common import DATA, TOP, TOOLBOX, Case, alone, program, tool

LESSONS = TOOLBOX / "lessons"
TWO = """router 1.0.0.1 1
router 2.0.0.1 2
link 1.0.0.1 2.0.0.1 10
join 1.0.0.1 2.0.0.1
origin 1.0.0.1 10.0.0.0/8
"""


def called(net, words):
    """What a command's call answers; its words stand as the call wants them."""
    name, rest = commands.OTHERWISE.get(words[0], words[0]), words[1:]
    if name in ("client", "next_hop_self"):
        rest[2:] = [rest[2] == "on"] if len(rest) == 3 else rest[2:]
    if name == "rule":
        at = next(at for at, word in enumerate(rest) if word in ("permit", "deny"))
        settings = dict(word.split("=") for word in rest[at + 1:])
        return net.rule(*rest[:3], " ".join(rest[3:at]), rest[at], **settings)
    if name == "feed" and len(rest) == 8:
        return net.feed(*rest[:7], comm=[int(number) for number in rest[7][len("comm="):].split(",")])
    if name == "feed" and rest[2] == "update":
        return net.feed(*rest[:6], med=None if rest[6] == "-" else int(rest[6]))
    return getattr(net, name)(*rest)


def shown(value):
    return "-" if value in (None, ()) else ",".join(map(str, value)) if isinstance(value, tuple) else str(value)


def attributes(route):
    """A route's attributes as the program prints them."""
    told = [("path", route.path), ("origin", route.origin), ("next", route.next_hop), ("med", route.med),
            ("pref", route.preference), ("oid", route.originator), ("clusters", route.clusters)]
    told += [("comms", route.communities)] if route.communities else []
    return " ".join("%s=%s" % (name, shown(value)) for name, value in told)


def reply(words, found):
    """An answer as the program prints it."""
    name = words[0]
    if name == "deliver":
        return ["took %s %s" % (found.prefix, found.kind)]
    if name == "quiet":
        return ["yes" if found else "no"]
    if name == "cost":
        return ["none" if found is None else "%d via %s" % (found.cost, found.first_hop)]
    if name == "best":
        return ["none" if found is None else "%s from %s %s" % (found.prefix, found.source, attributes(found))]
    if name not in language.REPORTS:
        return ["ok"] if found is None else [found]
    if name == "trace":
        lines = ["%s %s" % hop for hop in found.hops] + ["%s %s" % (found.end, found.place)]
    elif name == "why":
        lines = ["%s %s" % (each.source, each.reason) for each in found]
    elif name == "queue":
        ends = [" " + attributes(each.route) if each.route else "" for each in found]
        lines = ["%s %s%s" % (each.kind, each.prefix, end) for each, end in zip(found, ends)]
    else:
        sources = [" from " + each.source if name == "routes" else "" for each in found]
        lines = ["%s%s %s" % (each.prefix, source, attributes(each)) for each, source in zip(found, sources)]
    return lines + ["end %d" % len(lines)]


class Base(Case):
    def network(self, lines):
        """A network that ends with the test."""
        net = Network.from_lines(lines)
        self.addCleanup(net.close)
        return net

    def loaded(self, path):
        net = Network.load(path)
        self.addCleanup(net.close)
        return net

    def keep(self, net):
        self.addCleanup(net.close)
        return net


class Calls(Base):
    def test_each_command_is_one_call(self):
        made = vars(commands.Commands)
        calls = {name for name in made if inspect.isfunction(made[name]) and not name.startswith("_")}
        self.assertEqual(calls, {commands.OTHERWISE.get(name, name) for name in language.NAMES})
        self.assertEqual(len(calls), len(language.NAMES))

    def test_the_tour_by_calls_is_answered_as_the_program_answers_it(self):
        """A line that spells no command, and has no call for that, is the only one that is played as it is."""
        wanted, count = iter((TOP / "examples" / "tour.out").read_text().splitlines()), 0
        net = self.network([])
        for line in (TOP / "examples" / "tour.bgp").read_text().splitlines():
            words = line.split()
            if not words or words[0].startswith("#"):
                continue
            try:
                found = reply(words, called(net, words))
            except TypeError:
                with self.assertRaises(Refusal) as fault:
                    net.play(line)
                found = ["refused %d %s" % (fault.exception.number, fault.exception.name)]
                self.assertEqual(found, ["refused 1 syntax"])
            except Refusal as fault:
                self.assertEqual(fault.command, " ".join(words))
                found = ["refused %d %s" % (fault.number, fault.name)]
            self.assertEqual(found, [next(wanted) for _ in found], line)
            count += 1
        self.assertIsNone(next(wanted, None))
        self.assertGreater(count, 200)

    def test_numbers_are_numbers_and_what_is_absent_is_none(self):
        net = self.network("router 1.0.0.1 1\nvirtual 7.0.0.1 7\nlink 1.0.0.1 7.0.0.1 3\njoin 1.0.0.1 7.0.0.1\n")
        net.feed("7.0.0.1", "1.0.0.1", "update", "10.0.0.0/8", (7, 21), "egp", 5, comm={9, 2, 65536})
        net.feed("7.0.0.1", "1.0.0.1", "update", "11.0.0.0/8", "7_{21,22}")
        net.feed("7.0.0.1", "1.0.0.1", "withdraw", "10.0.0.0/8")
        route = Route("1.0.0.1", "10.0.0.0/8", "7.0.0.1", "7,21", "egp", "7.0.0.1", 5, None, None, (), (2, 9, 65536))
        first, _, last = net.queue("7.0.0.1", "1.0.0.1")
        self.assertEqual(first, Message("7.0.0.1", "1.0.0.1", "update", "10.0.0.0/8", route))
        self.assertEqual(last, Message("7.0.0.1", "1.0.0.1", "withdraw", "10.0.0.0/8", None))
        self.assertEqual(net.deliver("7.0.0.1", "1.0.0.1"), Delivery("7.0.0.1", "1.0.0.1", "update", "10.0.0.0/8"))
        self.assertEqual(net.received("1.0.0.1", "7.0.0.1"), [route])
        self.assertEqual(net.routes("1.0.0.1"), [dataclasses.replace(route, preference=100)])
        net.deliver("7.0.0.1", "1.0.0.1")
        found = net.best("1.0.0.1", "11.0.0.0/8")
        self.assertEqual((found.ases, found.length, found.neighbour, found.med), ((7, 21, 22), 2, 7, None))
        self.assertEqual(net.cost("1.0.0.1", "7.0.0.1"), Cost("1.0.0.1", "7.0.0.1", 3, "7.0.0.1"))
        self.assertIs(net.quiet(), False)

    def test_what_is_advertised_is_what_the_peer_receives(self):
        net = self.network(TWO)
        net.converge()
        told = net.advertised("1.0.0.1", "2.0.0.1")
        self.assertEqual([(each.router, each.source, each.path) for each in told], [("2.0.0.1", "1.0.0.1", "1")])
        self.assertEqual(told, net.received("2.0.0.1", "1.0.0.1"))

    def test_reasons_say_what_they_mean(self):
        net = self.network(TWO + "origin 2.0.0.1 10.0.0.0/8\n")
        net.converge()
        self.assertEqual(net.why("2.0.0.1", "10.0.0.0/8"), [
            Reason("2.0.0.1", "10.0.0.0/8", "self", "best", "it is chosen"),
            Reason("2.0.0.1", "10.0.0.0/8", "1.0.0.1", "length", "another has a shorter path")])
        net = self.loaded(TOP / "examples" / "lessons" / "med-oscillation.bgp")
        lost = [each for each in net.why("1.0.0.1", "203.0.113.0/24") if not each.is_best]
        self.assertIn("another has a lower MED, compared over all neighbours", [each.meaning for each in lost])

    def test_a_refusal_is_explained_as_play_does(self):
        net = self.network("# name 1.0.0.1 west\n" + TWO + "router 3.0.0.1 3\n")
        before = net.script()
        with self.assertRaises(Refusal) as fault:
            net.join("west", "3.0.0.1")
        told = fault.exception
        self.assertEqual((told.number, told.name, told.command), (9, "not-linked", "join 1.0.0.1 3.0.0.1"))
        self.assertEqual(told.explanation, "west (1.0.0.1) is in AS 1 and 3.0.0.1 in AS 3: an external session needs a "
                                           "link between them, `link 1.0.0.1 3.0.0.1 M`")
        self.assertEqual(str(told), "refused 9 not-linked: " + told.explanation)
        played = tool("play", "-", given=(before + told.command + "\n").encode(), status=1).stdout
        self.assertIn("        -- %s\n" % told.explanation, played)
        self.assertEqual(net.script(), before)

    def test_what_is_no_word_is_a_mistake_and_no_other_command(self):
        net = self.network(TWO)
        for word in ("", "1.0.0.9 5", "1.0.0.9\nquiet", None, True, 1.5, ["1.0.0.9"]):
            with self.assertRaisesRegex(Mistake, "^one word of a command is expected, and not "):
                net.router(word, 5)
            with self.assertRaisesRegex(Mistake, "^one word of a command is expected, and not "):
                net.router("1.0.0.9", word)
        for call in (lambda: net.router("1.0.0.9", -5), lambda: net.client("1.0.0.1", "2.0.0.1", "no"),
                     lambda: net.feed("1.0.0.1", "2.0.0.1", "withdraw", "10.0.0.0/8", med=5),
                     lambda: net.rule("1.0.0.1", "2.0.0.1", "in", "any", "deny", pref=5)):
            with self.assertRaises(Refusal) as fault:
                call()
            self.assertEqual((fault.exception.number, fault.exception.name), (1, "syntax"))
        self.assertEqual(net.script(), TWO)

    def test_names_stand_for_addresses(self):
        net = self.network(TWO)
        net.name("1.0.0.1", "west")
        net.name("2.0.0.1", "öst")
        net.metric("west", "öst", 20)
        net.play("fail west öst\n# expect refused 4\nlink west west 1\nmend west 2.0.0.1")
        self.assertEqual(net.links(), [Link("1.0.0.1", "2.0.0.1", 20, True)])
        self.assertEqual(net.nodes()[1], Node("2.0.0.1", 2, False, "öst"))
        self.assertIn("\n# name 2.0.0.1 öst\n", net.script())
        self.assertEqual(self.keep(net.at(net.step)).nodes(), net.nodes())
        for words, text in ((("1.0.0.1", "öst"), "the name öst is that of 2.0.0.1"),
                            (("9.0.0.1", "x"), "there is no router or virtual peer 9.0.0.1"),
                            (("1.0.0.1", "9.0.0.1"), "9.0.0.1 is an address"),
                            (("1.0.0.1", "a b"), "a name is one word")):
            with self.assertRaisesRegex(Mistake, "^" + text):
                net.name(*words)


class Scripts(Base):
    def test_a_refused_line_of_a_script_has_its_place(self):
        path = self.file("a.bgp", TWO + "# expect refused\nrouter 1.0.0.1 1\nfail 1.0.0.1 9.0.0.1\n")
        text = path.read_text()
        for call, place in ((lambda: Network.load(path), "%s:8" % path), (lambda: Network.from_lines(text), "lines:8"),
                            (lambda: Network.from_lines(text.splitlines()), "lines:8")):
            with self.assertRaises(Refusal) as fault:
                call()
            told = place + ": refused 2 no-router: there is no router or virtual peer 9.0.0.1"
            self.assertEqual(str(fault.exception), told)
        with self.assertRaisesRegex(Mistake, "it cannot be read"):
            Network.load(self.folder / "none")

    def test_it_is_its_script(self):
        net = self.network(TWO + "quiet\n# a comment\n# name 1.0.0.1 west\n")
        net.converge()
        net.save(self.folder / "kept.bgp")
        wanted = TWO + "# name 1.0.0.1 west\ndeliver 1.0.0.1 2.0.0.1\n"
        self.assertEqual((net.script(), (self.folder / "kept.bgp").read_text(), net.step), (wanted, wanted, 7))
        self.assertEqual(self.loaded(self.folder / "kept.bgp").table(), net.table())
        self.assertEqual(repr(net), "<Network: 2 routers, 0 virtual peers, step 7>")

    def test_a_copy_goes_on_by_itself(self):
        net = self.network(TWO)
        other = self.keep(net.copy())
        other.origin("2.0.0.1", "20.0.0.0/8")
        self.assertEqual([each.prefix for each in other.queue("1.0.0.1", "2.0.0.1")], ["10.0.0.0/8"])
        self.assertEqual(len(other.converge().deliveries), 2)
        self.assertEqual((net.quiet(), net.table("20.0.0.0/8"), net.script()), (False, [], TWO))
        net.close()
        self.assertEqual([each.router for each in other.table("20.0.0.0/8")], ["1.0.0.1", "2.0.0.1"])

    def test_the_network_at_each_step_is_that_of_so_many_lines(self):
        net = self.loaded(LESSONS / "disagree.bgp")
        net.converge(seed=3)
        lines = net.script().splitlines()
        self.assertEqual(net.step, len(lines))
        for step in range(net.step + 1):
            before = self.keep(net.at(step))
            self.assertEqual(before.script().splitlines(), lines[:step])
            asked = ["routes " + node.address for node in before.nodes()] + ["quiet"]
            found = [line for question in asked for line in reply(question.split(), called(before, question.split()))]
            self.assertEqual(found, program("".join(line + "\n" for line in lines[:step] + asked))[-len(found):])
        for step in (-1, net.step + 1):
            with self.assertRaises(Mistake) as fault:
                net.at(step)
            told = "there is no step %d: the network has the steps 0 to %d" % (step, net.step)
            self.assertEqual(str(fault.exception), told)

    def test_a_context_ends_the_program(self):
        with self.assertRaises(ZeroDivisionError), Network() as net:
            process = net.run.program.process
            raise ZeroDivisionError
        self.assertIsNotNone(process.poll())
        net.close()
        with self.assertRaisesRegex(Mistake, "^the network was closed$"):
            net.quiet()
        self.assertEqual(repr(net), "<Network: closed>")

    def test_what_was_stopped_leaves_what_was_accepted(self):
        """Ctrl-C before a reply is read, and a program that ends: what was left answers no later question."""
        net = self.network(TWO)

        for _ in range(2):
            told = mock.patch.object(net.run.program, "_line", side_effect=KeyboardInterrupt)
            with self.assertRaises(KeyboardInterrupt), told:
                net.origin("2.0.0.1", "20.0.0.0/8")
            self.assertEqual(net.table("20.0.0.0/8"), [])
            self.assertEqual((net.script(), net.quiet()), (TWO, False))
        net.run.program.process.kill()
        with self.assertRaisesRegex(Mistake, "the program ended before it had answered, by signal 9"):
            net.converge()
        self.assertEqual(len(net.converge().deliveries), 1)

    def test_more_lines_than_one_run_reads(self):
        kept = line_count.MOST_LINES, line_count.NEAR
        self.addCleanup(lambda: (setattr(line_count, "MOST_LINES", kept[0]), setattr(line_count, "NEAR", kept[1])))
        line_count.MOST_LINES, line_count.NEAR = 40, 2
        net = self.network(TWO)
        net.converge()
        for _ in range(100):
            self.assertEqual(net.best("2.0.0.1", "10.0.0.0/8").path, "1")
        self.assertEqual(self.keep(net.copy()).script(), net.script())


class Deliveries(Base):
    def test_an_order_is_the_tools(self):
        """The script of a network that was converged at its end is the one that the tool writes."""
        path, seen = DATA / "ring.bgp", set()
        for words, how in (((), {}), (("--router",), {"order": "router"}), (("--order", "fair"), {"order": "fair"}),
                           (("--seed", "3"), {"seed": 3}), (("--order", "random"), {"order": "random"}),
                           (("--seed", "7"), {"order": "random", "seed": 7})):
            net = self.loaded(path)
            base = len(net.script().splitlines())
            done = self.keep(net.copy()).converge(**how), net.converge(**how)
            self.assertEqual(*done)
            written = tool("converge", path, "--at-end", *words, status=0).stdout
            self.assertEqual(*(re.findall("^deliver .*$", script, re.M) for script in (net.script(), written)))
            self.assertEqual(len(done[0].deliveries), net.step - base)
            self.assertTrue(net.quiet())
            seen.add(done[0].deliveries)
        self.assertEqual(len(seen), 5)

    def test_a_copy_delivers_as_the_network_would(self):
        """Also where the network knows what its routers chose, and a random order depends on that."""
        for seed in range(1, 6):
            net = self.network((DATA / "ring.bgp").read_text())
            net.converge()
            other = self.keep(net.copy())
            for each in (net, other):
                each.noorigin("1.0.0.1", "10.1.0.0/16")
                each.noorigin("1.0.0.4", "10.4.0.0/16")
            self.assertEqual(other.converge(seed=seed), net.converge(seed=seed))

    def test_a_step_converges_as_the_tool_converges_its_script(self):
        net = self.loaded(DATA / "ring.bgp")
        net.converge()
        for step in (net.step - 5, net.step - 20, net.step // 2):
            before = self.keep(net.at(step)).script()
            for seed in (1, 2):
                with net.at(step) as trial:
                    trial.converge(seed=seed)
                    written = tool("converge", "-", "--at-end", "--seed", seed, given=before.encode(), status=0).stdout
                    self.assertEqual(trial.script(), written)

    def test_each_seed_of_disagree_ends_as_with_the_tool(self):
        net = self.loaded(LESSONS / "disagree.bgp")
        ends = []
        for seed in range(1, 11):
            with net.copy() as trial:
                try:
                    trial.converge(seed=seed)
                except NotConverged:
                    ends.append("endless")
                else:
                    ends.append(trial.best("left", "203.0.113.0/24").path)
        told = tool("converge", LESSONS / "disagree.bgp", "--at-end", "--states", "10", status=1).stdout
        for path, count in (("2,3", ends.count("2,3")), ("3", ends.count("3"))):
            seen = r"in %d of 10, as with --seed %d\n  [^\n]* path %s, " % (count, ends.index(path) + 1, path)
            self.assertRegex(told, seen)
        endless = ends.count("endless"), ends.index("endless") + 1
        self.assertIn("\n%d of 10 did not converge, as with --seed %d: " % endless, told)

    def test_what_does_not_converge(self):
        net = self.loaded(LESSONS / "disagree.bgp")
        with self.assertRaises(NotConverged) as fault:
            net.converge()
        told = fault.exception
        self.assertEqual((told.period, told.keeps_changing), (8, {"203.0.113.0/24": ["1.0.0.1", "2.0.0.1"]}))
        self.assertEqual(str(told), "in the fair order the same state comes back every 8 deliveries; 203.0.113.0/24 "
                                    "keeps changing at left (1.0.0.1), right (2.0.0.1)")
        self.assertEqual(["deliver %s %s" % (each.sender, each.receiver) for each in told.deliveries],
                         [line for line in net.script().splitlines() if line.startswith("deliver")])
        net = self.loaded(LESSONS / "disagree.bgp")
        done = net.converge(tries_others=True)
        self.assertEqual(done.order, "in the random order 3")
        self.assertRegex(done.note, "^in the fair order .*; it converges in the random order 3; of 9 .*, in [12] stable states?$")
        self.assertTrue(net.quiet())

    def test_at_most_so_many(self):
        net = self.network(TWO + "origin 1.0.0.1 20.0.0.0/8\n")
        with self.assertRaises(NotConverged) as fault:
            net.converge(most=1)
        told = "in the fair order it is not quiet after 1 deliveries: most=N allows more"
        self.assertEqual(str(fault.exception), told)
        self.assertEqual(net.converge().deliveries, (Delivery("1.0.0.1", "2.0.0.1", "update", "20.0.0.0/8"),))

    def test_one_order(self):
        net = self.network(TWO)
        for words, text in ((("fairly",), "an order is fair or router or random, and not 'fairly'"),
                            (("fair", 3), "one order is expected, and not random and fair"),
                            (("random", -3), "a seed is a number of 0 to 4294967295, and not -3"),
                            ((None, "x"), "a seed is a number of 0 to 4294967295, and not 'x'")):
            with self.assertRaisesRegex(Mistake, "^" + text):
                net.converge(*words)


class Changes(Base):
    def test_each_lesson_is_what_the_tool_tells(self):
        for lesson in sorted(LESSONS.glob("*.change")):
            with self.subTest(lesson=lesson.name):
                words = lesson.read_text().split("\n")[0].split(" ")[2:]
                if "--trace" in words or "--each" in words:
                    continue
                net = self.loaded(TOP / words[0])
                before = net.script()
                found = net.what_if(lesson.read_text())
                told = json.loads(tool("what-if", *words, "--json", status=1).stdout)
                self.assertEqual(net.script(), before)
                self.assertEqual(found.text, lesson.with_suffix(".what-if").read_text())
                self.same(found, told)

    def same(self, found, told):
        """An effect is what the tool tells as JSON."""
        self.assertEqual((found.is_changed, found.is_converged, found.keeps_changing),
                         (True, told["converged"], told["keeps_changing"]))
        self.assertEqual([(each.router, each.kind, each.prefix, each.reason) for each in found.routes],
                         [(each["router"], each["kind"], each["prefix"], each["reason"]) for each in told["routes"]])
        for ways, others in ((found.forwarding, told["forwarding"]), (found.loops, told["loops"]),
                             (found.black_holes, told["black_holes"])):
            self.assertEqual([(each.router, each.address, each.before.hops, each.after.end) for each in ways],
                             [(each["router"], each["address"], tuple(tuple(hop.values()) for hop in each["before"]["hops"]),
                               each["after"]["end"]) for each in others])
        self.assertEqual([len(part) for part in (found.told, found.sent, found.in_between, found.deliveries)],
                         [len(told[part]) for part in ("told", "sent", "in_between", "deliveries")])

    def test_a_lost_link_by_hand(self):
        """Three ASes, each linked to the two others: what 1 and 3 told each other goes by 2."""
        net = self.loaded(LESSONS / "three-ases.bgp")
        found = net.what_if(["fail 1.0.0.1 3.0.0.1"], trace=[("2.0.0.1", "198.51.100.1")])
        self.assertIsInstance(found, Effect)
        one = next(each for each in found.moved if each.router == "1.0.0.1")
        self.assertEqual((one.prefix, one.before.path, one.after.path, one.after.source),
                         ("203.0.113.0/24", "3", "2,3", "2.0.0.1"))
        self.assertEqual((len(found.moved), found.lost, found.gained), (2, [], []))
        self.assertEqual((found.sessions_down, found.sessions_up), ([("1.0.0.1", "3.0.0.1")], []))
        way = next(each for each in found.forwarding if each.router == "3.0.0.1")
        self.assertEqual(way.before.routers, ["3.0.0.1", "1.0.0.1"])
        self.assertEqual(way.after.routers, ["3.0.0.1", "2.0.0.1", "1.0.0.1"])
        self.assertEqual(found.asked[0].before, found.asked[0].after)
        self.assertEqual({(each.line, each.command) for each in found.sent}, {(1, "fail 1.0.0.1 3.0.0.1")})
        self.assertEqual([(each.message.sender, each.message.kind, each.message.prefix) for each in found.sent],
                         [("1.0.0.1", "withdraw", "203.0.113.0/24"), ("3.0.0.1", "withdraw", "198.51.100.0/24")])
        self.assertFalse(net.quiet())
        self.assertFalse(net.what_if("# nothing\n").is_changed)

    def test_a_leak_in_between(self):
        net = self.loaded(TOP / "examples/lessons/leaking-policy.bgp")
        found = net.what_if((LESSONS / "empty-policy.change").read_text())
        leaked = [each for each in found.in_between if each.kind == "leaked"]
        self.assertEqual([(each.line, each.until, each.message.receiver, each.message.route.path) for each in leaked],
                         [(3, 5, "8.0.0.1", "5,7")])
        self.assertEqual([(each.router, each.before.path, each.after.path, each.after.source) for each in found.told],
                         [("8.0.0.1", "5,5", "5,5,5,5", "5.0.0.1")])

    def test_mistakes(self):
        net = self.loaded(LESSONS / "many-prefixes.bgp")
        with self.assertRaisesRegex(Refusal, "^lines:2: refused 7 no-link: "):
            net.what_if("fail west east\nfail west 5.0.0.1\n".replace("west 5.0.0.1", "east upstream"))
        with self.assertRaisesRegex(Refusal, "^refused 2 no-router: "):
            net.what_if([], trace=[("9.9.9.9", "1.2.3.4")])
        with self.assertRaisesRegex(Refusal, "^refused 1 syntax: "):
            net.what_if([], trace=[("west", "x")])
        with self.assertRaisesRegex(NotConverged, "^the base does not converge: .*none converges"):
            lesson = self.loaded(TOP / "examples/lessons/med-oscillation.bgp")
            before = lesson.script().splitlines().index("rule 1.0.0.3 6.0.0.1 in any permit med=0")
            self.keep(lesson.at(before)).what_if([])
        self.assertEqual(len(net.what_if("stop west upstream").lost), 60)

    def test_orders_and_each_are_the_tools(self):
        base, change = LESSONS / "disagree.bgp", ["origin 3.0.0.1 20.0.0.0/8", "noorigin 3.0.0.1 20.0.0.0/8"]
        for words, how in ((("--router",), {"order": "router"}), (("--seed", "4"), {"seed": 4}),
                           (("--each", "--seed", "3"), {"each": True, "seed": 3})):
            given = "".join(line + "\n" for line in change).encode()
            told = tool("what-if", base, "-", *words, given=given).stdout
            self.assertEqual(self.loaded(base).what_if(change, **how).text, told)

    def test_another_order_is_told(self):
        found = self.loaded(LESSONS / "disagree.bgp").what_if(["origin 3.0.0.1 20.0.0.0/8"])
        self.assertEqual([note.split(";")[2] for note in found.notes], [" it converges in the random order 3"] * 2)


class More(Base):
    def test_an_explanation(self):
        net = self.loaded(TOP / "examples" / "tour.bgp")
        chosen, lost = net.explain("5.0.0.1", "10.6.0.0/16")
        self.assertEqual((chosen.source, chosen.reason, chosen.verdict), ("7.0.0.1", "best", "chosen"))
        self.assertEqual((chosen.against, chosen.route.med, chosen.cost), (None, 5, 1))
        self.assertEqual((lost.reason, lost.against, lost.verdict, lost.route.med),
                         ("med", "7.0.0.1", "lost by MED: 10 against 5 of 7.0.0.1, compared among routes of AS 7", 10))
        excluded = net.explain("5.0.0.1", "10.1.0.0/16")[0]
        self.assertEqual((excluded.reason, excluded.cost, excluded.against), ("loop", None, None))
        self.assertIsNone(excluded.route.preference)
        with self.assertRaises(Refusal):
            net.explain("7.0.0.1", "10.1.0.0/16")

    def test_a_picture_is_what_draw_draws(self):
        path = LESSONS / "customers.bgp"
        net = self.loaded(path)
        net.converge()
        words = ("--converge", "--prefix", "203.0.113.0/24", "--trace", "east", "203.0.113.1")
        told = {"prefix": "203.0.113.0/24", "trace": ("east", "203.0.113.1")}
        self.assertEqual(net.picture("dot", **told), tool("draw", path, *words, status=0).stdout)
        near = {"sessions": False, "of": "east", "hops": 2}, ("--no-sessions", "--of", "east", "--hops", "2")
        for how, chosen in (near, ({"only": [5]}, ("--only", "5"))):
            drawn = tool("draw", path, "--converge", *chosen, status=0).stdout
            self.assertEqual(net.picture("dot", **how), drawn)
        for call, text in ((lambda: net.picture("png"), "a picture is `svg` or `dot`, and not 'png'"),
                           (lambda: net.picture(prefix="x"), "--prefix x: ")):
            with self.assertRaisesRegex(Mistake, "^" + text):
                call()
        if shutil.which("dot"):
            tool("draw", path, *words, "-o", self.folder / "a.svg", status=0)
            self.assertEqual(net.picture(**told), (self.folder / "a.svg").read_text())

    def test_what_is_configured(self):
        net = self.network(TWO + "virtual 7.0.0.1 7\nlink 7.0.0.1 1.0.0.1 4\njoin 7.0.0.1 1.0.0.1\n")
        net.fail("1.0.0.1", "2.0.0.1")
        net.stop("1.0.0.1", "7.0.0.1")
        routers = [Node("1.0.0.1", 1, False, None), Node("2.0.0.1", 2, False, None)]
        self.assertEqual(net.nodes(), routers + [Node("7.0.0.1", 7, True, None)])
        self.assertEqual(net.links(), [Link("1.0.0.1", "2.0.0.1", 10, False), Link("1.0.0.1", "7.0.0.1", 4, True)])
        self.assertEqual(net.sessions(), [Session("1.0.0.1", "2.0.0.1", True, True, False),
                                          Session("1.0.0.1", "7.0.0.1", True, False, False)])

    def test_tables_are_flat(self):
        """A cell of a table is a word, a number, nothing, or a row of these: as pandas and csv take it."""
        net = self.loaded(TOP / "examples" / "tour.bgp")
        tables = [net.table(), net.nodes(), net.links(), net.sessions(), net.why("5.0.0.1", "10.3.0.0/16"),
                  net.received("5.0.0.1", "7.0.0.1")]
        for table in tables:
            self.assertGreater(len(table), 1)
            for row in map(dataclasses.asdict, table):
                self.assertEqual({type(value) for value in row.values()} - {str, int, bool, type(None), tuple}, set())
        self.assertEqual(net.table("10.3.0.0/16"), [each for each in net.table() if each.prefix == "10.3.0.0/16"])
        with self.assertRaisesRegex(Mistake, "^a prefix is expected, as 10.0.0.0/8, and not '10.3.0.0'$"):
            net.table("10.3.0.0")
        self.assertEqual([(each.router, each.prefix) for each in net.table()],
                         [(node.address, each.prefix) for node in net.nodes() if not node.is_virtual
                          for each in net.routes(node.address)])

    @unittest.skipUnless(importlib.util.find_spec("pandas"), "pandas is not installed: apt-get install python3-pandas")
    def test_pandas_takes_a_table(self):
        import pandas
        net = self.loaded(TOP / "examples" / "tour.bgp")
        frame = pandas.DataFrame(net.table())
        self.assertEqual(list(frame.columns), [each.name for each in dataclasses.fields(Route)])
        self.assertEqual(list(frame["path"]), [each.path for each in net.table()])
        self.assertEqual(frame["med"].max(), max(each.med for each in net.table() if each.med is not None))


class Package(Base):
    def test_its_names(self):
        for name in bgptools.__all__:
            self.assertTrue(callable(getattr(bgptools, name)), name)
        tree = ast.parse((TOOLBOX / "bgptools" / "__init__.py").read_text())
        typed = [alias.name for node in ast.walk(tree) if isinstance(node, ast.ImportFrom) for alias in node.names]
        self.assertEqual(sorted(set(typed) - {"annotations", "TYPE_CHECKING"}), sorted(bgptools.__all__))
        with self.assertRaises(ImportError):
            from bgptools import Nothing  # noqa: F401

    def test_a_tool_begins_without_it(self):
        asks = ("import sys, bgptools.cli.converge; print('bgptools.api.network' in sys.modules); "
                "from bgptools import *; print(Network.__module__)")
        told = alone([sys.executable, "-B", "-c", asks], TOOLBOX)
        self.assertEqual((told.stdout, told.stderr), (b"False\nbgptools.api.network\n", b""))

    def test_answers_do_not_change(self):
        for module in (effect, values):
            for name, made in inspect.getmembers(module, inspect.isclass):
                if made.__module__ == module.__name__:
                    self.assertTrue(made.__dataclass_params__.frozen, name)

    def test_examples_in_modules_and_in_the_document(self):
        here = os.getcwd()
        self.addCleanup(os.chdir, here)
        os.chdir(str(TOP))
        for module in (interface, commands, values, effect):
            self.assertEqual(doctest.testmod(module).failed, 0)
        told = doctest.testfile(str(TOP / "docs" / "howto" / "use-python.md"), module_relative=False)
        self.assertGreater(told.attempted, 10)
        self.assertEqual(told.failed, 0)

    def test_the_document_has_each_call(self):
        text = (TOP / "docs" / "reference" / "python.md").read_text()
        for name, _ in inspect.getmembers(Network, lambda each: inspect.isroutine(each) or isinstance(each, property)):
            if not name.startswith("_"):
                self.assertRegex(text, r"(?m)(^|`net\.|^Network\.)%s\b" % name)
