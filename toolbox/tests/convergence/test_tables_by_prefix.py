"""converge --by-prefix and sweep --by-prefix: the parts of a network together tell what the whole tells."""
import itertools
import json
import re

from bgptools.program.language import by_address
from common import TOP, Case, inside, program
from relations import relations
from test_sweep import BASE, DISAGREE, MANY, THREE


class ByPrefix(Case):
    def network(self):
        """Sixteen ASes with valley-free policies, and a prefix each."""
        ties = self.file("relations", "\n".join(relations(16, 3)) + "\n")
        return self.file("network", inside("from-as-rel", ties, "--origins", "all").stdout)

    def test_converged_tables(self):
        for base in (self.network(), MANY, self.file("base", BASE), THREE):
            whole = inside("converge", "--at-end", base).stdout
            routers = sorted(re.findall("^router ([0-9.]+)", whole, re.M), key=by_address)
            asked = "".join("routes %s\n" % router for router in routers)
            count = sum(bool(line) and line[0] != "#" for line in whole.split("\n"))
            replies = iter(program(whole + asked)[count:])
            wanted = "".join("routes %s\n%s" % (router, "".join(line + "\n" for line in itertools.takewhile(
                lambda line: not line.startswith("end "), replies))) for router in routers)
            for number in (1, 5, 1000):
                told = inside("converge", "--by-prefix", number, "--jobs", 2, base)
                self.assertEqual((told.returncode, re.sub("end .*\n", "", told.stdout), told.stderr), (0, wanted, ""))
                ends = [block.count("\n") - 1 for block in re.split("(?<=\n)(?=routes)", wanted)]
                self.assertEqual([int(text) for text in re.findall("end (.*)\n", told.stdout)], ends)

    def test_a_part_does_not_see_those_before_it(self):
        """Each tells what it tells alone: after one that converges in another order than the first, or in none, too."""
        text = DISAGREE.read_text()
        origin = next(line for line in text.split("\n") if line.startswith("origin "))
        router = origin.split(" ")[1]
        prefixes = ["203.0.113.0/24", "203.0.114.0/24", "203.0.115.0/24"]
        self.assertEqual(origin, "origin %s %s" % (router, prefixes[0]))
        for words in (("--at-end",), ("--at-end", "--most", 3)):
            alone = []
            for to in prefixes:
                base = self.file("network", text.replace(prefixes[0], to))
                alone.append(inside("converge", "--by-prefix", 1, "--jobs", 1, base, *words))
            base = self.file("network", text + "".join("origin %s %s\n" % (router, to) for to in prefixes[1:]))
            told = inside("converge", "--by-prefix", 1, "--jobs", 1, base, *words)
            self.assertEqual(told.returncode, alone[0].returncode, words)
            self.assertEqual([line for line in sorted(told.stdout.split("\n")) if line[:4] != "end "],
                             sorted({line for one in alone for line in one.stdout.split("\n") if line[:4] != "end "}))
            without = [re.sub(r"network:\d+", "network", line) for line in told.stderr.split("\n")]
            self.assertEqual(set(without), {re.sub(r"network:\d+", "network", line) for one in alone
                                            for line in one.stderr.split("\n")})

    def test_sweeps(self):
        for base, words in ((self.network(), ("--fail-links", "--hijack", "100.0.3.0/24")),
                            (self.file("base", BASE), ("--fail-routers", "--fail-sessions"))):
            one = inside("sweep", base, *words, "--json")
            for number in (1, 4):
                told = inside("sweep", base, *words, "--json", "--by-prefix", number, "--jobs", 2)
                self.assertEqual((json.loads(told.stdout), told.returncode), (json.loads(one.stdout), one.returncode))

    def test_orders(self):
        """Of a second prefix at which the same ASes disagree; lots are the same for the same number in each part."""
        text = DISAGREE.read_text() + "origin 3.0.0.1 198.51.100.0/24\n"
        told = json.loads(inside("sweep", self.file("base", text), "--orders", 12, "--by-prefix", 1, "--json").stdout)
        one = json.loads(inside("sweep", DISAGREE, "--orders", 12, "--json").stdout)
        self.assertEqual({row["change"]: (row["converged"], row["moved"] / 2) for row in told["changes"]},
                         {row["change"]: (row["converged"], row["moved"]) for row in one["changes"]})
        self.assertEqual([state["orders"] for state in told["states"]], [state["orders"] for state in one["states"]])

    def test_prefixes_in_one_another_are_followed_together(self):
        base = self.file("base", BASE.replace("50.0.0.0/8", "30.0.0.0/7"))
        one, parts = (json.loads(inside("sweep", base, "--fail-links", "--json", *words).stdout)
                      for words in ((), ("--by-prefix", 1)))
        self.assertEqual(one, parts)

    def test_mistakes(self):
        told = inside("converge", "--by-prefix", 2, TOP / "examples" / "hijack.bgp")
        self.assertRegex(told.stderr, r"hijack.bgp:\d+: `deliver .*`: in a script with deliveries of its own")
        one = ("--by-prefix", 1)
        for words in ((*one, "--states", 2), ("--jobs", 2), ("--by-prefix", 0), (*one, "--jobs", 0)):
            self.assertEqual(inside("converge", *words, THREE).returncode, 2)
        told = inside("converge", "--by-prefix", 1, TOP / "examples/lessons/med-oscillation.bgp")
        self.assertEqual((told.returncode, told.stdout), (2, ""))
