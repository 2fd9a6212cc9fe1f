"""What tools tell as JSON: it is what docs/reference/schemas says, and what they tell as text."""
import csv
import dataclasses
import json
import os

import jsonschema

from common import DATA, EXAMPLES, TOOLBOX, TOP, Case, tool

from bgptools import (
    Cost, Delivery, Effect, Explanation, InBetween, Message, Network, Reason, Route, RouteChange, Sent, Trace, WayChange)
from bgptools.program import documents
from bgptools.program.language_table import REFUSALS

SCHEMAS = TOP / "docs" / "reference" / "schemas"
LESSONS = TOOLBOX / "lessons"
DISAGREE = LESSONS / "disagree.bgp"


def schemas():
    """All schemas, by their names."""
    return {path.name: json.loads(path.read_text()) for path in sorted(SCHEMAS.glob("*.json"))}


def open_objects(schema, at=""):
    """Where a schema has an object that may lack fields or have others, with these fields."""
    if isinstance(schema, dict):
        fields = set(schema.get("properties", ()))
        if schema.get("type") == "object" and "properties" in schema and (
                fields != set(schema.get("required", ())) or schema.get("additionalProperties") is not False):
            yield at, sorted(fields - set(schema.get("required", ())))
    parts = schema.items() if isinstance(schema, dict) else enumerate(schema) if isinstance(schema, list) else ()
    for name, part in parts:
        yield from open_objects(part, "%s/%s" % (at, name))


class Json(Case):
    @classmethod
    def setUpClass(cls):
        known = schemas()
        cls.judges = {}
        for name, schema in known.items():
            jsonschema.Draft7Validator.check_schema(schema)
            resolver = jsonschema.RefResolver(name, schema, store=known)
            cls.judges[name] = jsonschema.Draft7Validator(schema, resolver=resolver)

    def told(self, name, *words, given=b"", status=0):
        """The only document that a tool tells, which its schema allows."""
        ran = tool(name, *words, "--json", given=given, status=status)
        found = json.loads(ran.stdout)
        self.judges[name + ".json"].validate(found)
        self.assertEqual((found["version"], found["tool"]), (1, name))
        return found

    def played(self, *words, given=b"", status=0):
        """The documents of a play, a line each."""
        ran = tool("play", "--json", *words, given=given, status=status)
        found = [json.loads(line) for line in ran.stdout.splitlines()]
        for each in found:
            self.judges["play.json"].validate(each)
        return found

    def test_each_schema_is_one_of_a_tool_or_of_values(self):
        tools = ("check", "compare-live", "explain", "play", "converge", "hijack", "sweep", "timeline", "what-if")
        self.assertEqual(set(self.judges), {"language.json", "request.json", "values.json"} | {name + ".json" for name in tools})

    def test_a_check(self):
        found = self.told("check", LESSONS / "customers.bgp")
        self.assertEqual([(each["kind"], each["note"], each["router"]) for each in found["findings"]],
                         [("single-session", True, "5.0.0.1"), ("transit", True, "5.0.0.2")])
        self.told("check", DISAGREE, status=1)
        rules = self.folder / "rules"
        rules.write_text("east reaches 10.0.0.0/8\n")
        found = self.told("check", LESSONS / "customers.bgp", "--invariants", rules, status=1)
        self.assertEqual(found["findings"][0]["way"], {"hops": [], "end": "noroute", "place": "5.0.0.2"})

    def test_a_schema_refuses_what_it_does_not_name(self):
        found = self.told("explain", "examples/hot-potato.bgp", "5.0.0.1", "203.0.113.0/24")
        judge = self.judges["explain.json"]
        route = found["routes"][0]["route"]
        for wrong in ({**found, "more": 1}, {**found, "version": 2}, {**found, "prefix": "203.0.113.0/33"},
                      {**found, "routes": [{**found["routes"][0], "reason": "frobbed"}]},
                      {**found, "routes": [{**found["routes"][0], "route": {**route, "next_hop": "5.0.0.256"}}]},
                      {**found, "routes": [{**found["routes"][0], "route": {**route, "med": "0"}}]},
                      {**found, "routes": [{**found["routes"][0], "route": {**route, "path": "7__8"}}]}):
            self.assertFalse(judge.is_valid(wrong))
        self.assertTrue(judge.is_valid(found))

    def test_objects_are_closed_and_all_fields_are_there(self):
        """But for the deliveries after a command, which are there with --converge alone."""
        found = {name: list(open_objects(schema)) for name, schema in schemas().items() if name != "request.json"}
        self.assertEqual(found.pop("play.json"), [("", ["convergence"])])
        self.assertEqual({name: each for name, each in found.items() if each}, {})
        wrong = {"a": [{"type": "object", "properties": {"b": {}}}]}
        self.assertEqual(list(open_objects(wrong)), [("/a/0", ["b"])])

    def test_the_schemas_have_the_fields_of_the_data_classes(self):
        known = schemas()
        what_if = known["what-if.json"]
        places = {kind: known["values.json"]["definitions"][kind.__name__.lower()]
                  for kind in (Route, Reason, Delivery, Message, Cost, Trace)}
        places.update({
            Explanation: known["explain.json"]["definitions"]["explanation"],
            RouteChange: what_if["definitions"]["route_change"], WayChange: what_if["definitions"]["way_change"],
            Sent: what_if["properties"]["sent"]["items"], InBetween: what_if["properties"]["in_between"]["items"]})
        for kind, schema in places.items():
            fields = [documents.field_name(each.name) for each in dataclasses.fields(kind)]
            self.assertEqual(list(schema["properties"]), fields, kind.__name__)
        fields = {documents.field_name(each.name) for each in dataclasses.fields(Effect) if each.repr}
        self.assertEqual(set(what_if["properties"]), fields | {
            "version", "tool", "base", "change", "names", "configuration", "left_out", "steps"})

    def test_bytes_of_a_script_and_of_a_name_are_shown_as_text_shows_them(self):
        path = os.fsencode(self.folder) + b"/a\xff.bgp"
        with open(path, "wb") as file:
            file.write("# name 1.0.0.1 K\u00f6ln\nrouter 1.0.0.1 1\nK\u00f6ln ".encode() + b"\xff\x1bx\n")
        found = self.played(os.fsdecode(path), status=1)
        self.assertEqual([each["command"] for each in found], ["router 1.0.0.1 1", "K\u00f6ln \\xff\\x1bx"])
        self.assertEqual({each["file"] for each in found}, {"%s/a\\xff.bgp" % self.folder})
        self.assertIn("\n   3  K\u00f6ln \\xff\\x1bx\n", tool("play", os.fsdecode(path), status=1).stdout)
        lines = documents.line_of(documents.document("play", at={"\udcff": ["\udc80", "\u00f6"]}))
        self.assertEqual(json.loads(lines)["at"], {"\\xff": ["\\x80", "\u00f6"]})

    def test_each_example_is_played_as_the_program_replies(self):
        kinds = set()
        for path in EXAMPLES:
            with self.subTest(path.name):
                found = self.played(path)
                wanted = [line for line in path.with_suffix(".out").read_text().split("\n") if line]
                self.assertEqual([line for each in found for line in self.lines(each["reply"])], wanted)
                kinds |= {each["reply"]["kind"] for each in found}
        self.assertEqual(kinds, {"done", "delivery", "routes", "choice", "reasons", "rib", "queue", "quiet", "cost",
                                 "trace", "refusal"})

    def lines(self, reply):
        """A reply as the language has it, put together from the values alone."""
        kind = reply["kind"]
        if kind in ("routes", "rib", "reasons", "queue"):
            made = {"routes": self.held, "rib": lambda each: "%s %s" % (each["prefix"], self.text(each)),
                    "reasons": lambda each: "%s %s" % (each["source"], each["reason"]), "queue": self.message}[kind]
            lines = list(map(made, reply[{"rib": "routes", "queue": "messages"}.get(kind, kind)]))
            return lines + ["end %d" % len(lines)]
        if kind == "trace":
            hops = ["%(router)s %(prefix)s" % hop for hop in reply["trace"]["hops"]]
            return hops + ["%(end)s %(place)s" % reply["trace"], "end %d" % (len(hops) + 1)]
        return [{"done": lambda: "ok", "refusal": lambda: "refused %(number)d %(name)s" % reply,
                 "quiet": lambda: "yes" if reply["quiet"] else "no",
                 "choice": lambda: self.held(reply["route"]) if reply["route"] else "none",
                 "cost": lambda: "%(cost)d via %(first_hop)s" % reply["cost"] if reply["cost"] else "none",
                 "delivery": lambda: "took %(prefix)s %(kind)s" % reply["delivery"]}[kind]()]

    def held(self, route):
        return "%s from %s %s" % (route["prefix"], route["source"], self.text(route))

    def message(self, each):
        route = each["route"]
        return "withdraw " + each["prefix"] if route is None else "update %s %s" % (each["prefix"], self.text(route))

    def text(self, route):
        listed = {key: ",".join(map(str, value)) if isinstance(value, list) else value for key, value in route.items()}
        shown = {key: "-" if value in (None, "") else value for key, value in listed.items()}
        text = ("path=%(path)s origin=%(origin)s next=%(next_hop)s med=%(med)s pref=%(preference)s oid=%(originator)s "
                "clusters=%(clusters)s" % shown)
        return text + (" comms=%(communities)s" % shown if route["communities"] else "")

    def test_two_networks_and_what_leads_from_one_to_the_other(self):
        found = self.told("what-if", "toolbox/lessons/frr", "toolbox/lessons/bird", "--steps", status=1)
        self.assertEqual({each["part"] for each in found["configuration"]}, {"med", "policy"})
        self.assertEqual({each["side"] for each in found["left_out"]}, {"old", "new"})
        self.assertEqual(found["steps"]["other_routes_at"], [])

    def test_real_routers(self):
        found = self.told("compare-live", "toolbox/lessons/live-bird/answers", "toolbox/lessons/bird", status=1)
        self.assertEqual(found["agreed"], 1)
        self.assertEqual([[one["name"] for one in each["attributes"]] for each in found["differences"]], [
            ["path", "MED", "preference", "communities"]])
        self.assertEqual([each["prefix"] for each in found["unknown"]], ["198.51.100.0/24"])

    def test_a_timeline_tells_what_its_csv_does(self):
        script = self.file("replay.bgp", "# name 1.0.0.1 one\nrouter 1.0.0.1 1\n# time 2026-12-01T12:00:00Z\n"
                           "origin 1.0.0.1 10.0.0.0/8\n# time 2026-12-01T12:00:00.500000Z\nnoorigin 1.0.0.1 10.0.0.0/8\n")
        found = self.told("timeline", script, "10.0.0.0/8")
        rows = list(csv.DictReader(tool("timeline", script, "10.0.0.0/8", "--csv", status=0).stdout.splitlines()))
        self.assertEqual([(each["time"], str(each["line"]), each["reason"], each["route"] and each["route"]["path"]) for each in found["choices"]],
                         [(row["time"], row["line"], row["reason"], row["path"] or None) for row in rows])
        self.assertEqual([(each["command"], each["next_as"], each["route"] and each["route"]["source"]) for each in found["choices"]],
                         [("origin 1.0.0.1 10.0.0.0/8", None, "self"), ("noorigin 1.0.0.1 10.0.0.0/8", None, None)])
        self.assertEqual((found["begin"], found["end"], found["names"], found["converged"]),
                         ("2026-12-01T12:00:00Z", "2026-12-01T12:00:00.500000Z", {"1.0.0.1": "one"}, True))
        self.assertEqual(found["choices"][1]["reason"], "it is no longer originated here")

    def test_a_refusal_is_explained(self):
        found = self.played("-", given=b"router 1.0.0.1 1\n# expect refused 3\nrouter 1.0.0.1 1\nfail 1.0.0.1 2.0.0.1\n"
                                       b"# expect refused\nquiet\n", status=1)
        self.assertEqual([(each["line"], each["reply"]["kind"], each["expected"]) for each in found],
                         [(1, "done", True), (3, "refusal", True), (4, "refusal", False), (6, "quiet", False)])
        reply = found[2]["reply"]
        self.assertEqual((reply["number"], reply["name"], reply["explanation"]),
                         (2, "no-router", "there is no router or virtual peer 2.0.0.1"))
        self.assertEqual(reply["instead"], REFUSALS[1].instead)

    def test_deliveries_after_each_command(self):
        lines = (b"router 1.0.0.1 1\nrouter 2.0.0.1 2\nlink 1.0.0.1 2.0.0.1 1\njoin 1.0.0.1 2.0.0.1\n"
                 b"origin 1.0.0.1 10.0.0.0/8\n")
        found = self.played("--converge", "-", given=lines)
        told = {"sender": "1.0.0.1", "receiver": "2.0.0.1", "kind": "update", "prefix": "10.0.0.0/8"}
        self.assertEqual([each["convergence"]["deliveries"] for each in found], [[], [], [], [], [told]])
        other = self.played("--converge", DISAGREE)[-1]["convergence"]
        self.assertTrue(other["converged"] and "converges" in other["note"])

    def test_explanations_are_those_of_the_interface(self):
        with Network.load(str(TOP / "examples" / "tour.bgp")) as net:
            for router, prefix in (("5.0.0.1", "10.6.0.0/16"), ("3.0.0.4", "30.0.0.0/8"), ("5.0.0.1", "10.99.0.0/16")):
                found = self.told("explain", "examples/tour.bgp", router, prefix)["routes"]
                self.assertEqual([(each["source"], each["reason"], each["verdict"], each["against"], each["cost"])
                                  for each in found],
                                 [(each.source, each.reason, each.verdict, each.against, each.cost)
                                  for each in net.explain(router, prefix)])

    def test_what_is_advertised_to_a_peer(self):
        asked = ("explain", "--converge", "examples/hot-potato.bgp", "5.0.0.1", "203.0.113.0/24", "--to")
        found = self.told(*asked, "7.0.0.1")
        self.assertEqual((found["advertised"], found["peer"]), (None, "7.0.0.1"))
        self.assertIn("it was learned from this peer", found["why_not"])
        told = self.told(*asked, "5.0.0.2")
        self.assertEqual((told["advertised"]["router"], told["advertised"]["source"], told["why_not"]),
                         ("5.0.0.2", "5.0.0.1", []))

    def test_each_change_of_the_lessons(self):
        for lesson in sorted(LESSONS.glob("*.change")):
            with self.subTest(lesson.name):
                words = lesson.read_text().split("\n")[0].split(" ")[2:]
                found = self.told("what-if", *words, status=1)
                self.assertTrue(found["changed"])
                kinds = {(each["kind"], each["before"] is None, each["after"] is None) for each in found["routes"]}
                known = {("gained", True, False), ("lost", False, True), ("moved", False, False)}
                self.assertEqual(kinds - known, set())

    def test_stable_states_and_tables(self):
        found = self.told("converge", DISAGREE, "--states", 6, "--at-end", status=1)
        self.assertEqual(sum(len(state["seeds"]) for state in found["states"]) + len(found["not_converged"]), 6)
        whole, = self.told("converge", DISAGREE, "--stable")["prefixes"]
        self.assertEqual([each["route"]["path"] for state in whole["states"] for each in state["routes"]], ["2,3", "3", "3", "1,3"])
        self.told("converge", LESSONS / "bad-gadget.bgp", "--stable", status=1)
        text = tool("converge", DISAGREE, "--states", 6, "--at-end").stdout
        self.assertIn("%d stable state" % len(found["states"]), text)
        base = LESSONS / "three-ases.bgp"
        routes = self.told("converge", base, "--by-prefix", 1, "--jobs", 1)["routes"]
        lines = tool("converge", base, "--by-prefix", 1, "--jobs", 1).stdout.split("\n")
        self.assertEqual([self.held(route) for route in routes], [line for line in lines if " from " in line])

    def test_a_sweep(self):
        found = self.told("sweep", "examples/hot-potato.bgp", "--fail-links", "--jobs", 1, status=1)
        self.assertEqual([row["kind"] for row in found["changes"]], ["link"] * len(found["changes"]))
        found = self.told("sweep", DISAGREE, "--orders", 6, "--jobs", 1, status=1)
        self.assertEqual(sum(len(state["orders"]) for state in found["states"]),
                         sum(row["converged"] for row in found["changes"]))

    def test_a_hijack(self):
        graph = LESSONS / "relationships.txt"
        for words in ((), ("--rov", "top:1", "--peerlock", "2")):
            found = self.told("hijack", graph, "--kind", "leak", "--count", 3, "--jobs", 1, *words, status=1)
            self.assertEqual((len(found["pairs"]), found["ases"], found["seed"]), (3, 4, 1))
            self.assertEqual([(tier["tier"], tier["pairs"]) for tier in found["tiers"]], [("stub", 3)])
            self.assertEqual(found["rov"], {"words": "top:1", "ases": 1} if words else None)

    def test_mistakes_stand_beside_the_documents(self):
        for name, words, told in (
                ("converge", (DISAGREE,), "--json is for --stable, --states and --by-prefix"),
                ("explain", (DISAGREE, "9.9.9.9", "10.0.0.0/8"), "there is no router 9.9.9.9"),
                ("play", ("nowhere.bgp",), "nowhere.bgp"), ("what-if", (DISAGREE, "nowhere.bgp"), "nowhere.bgp"),
                ("sweep", (DISAGREE,), "which changes?")):
            ran = tool(name, *words, "--json", status=2)
            self.assertEqual(ran.stdout, "")
            self.assertIn(told, ran.stderr)
