"""from-frr against tables that were worked out by FRR's documents: data/frr-cases/README.md says what a case is."""
import re
import shutil
import sys

from common import DATA, Case, inside, program

CASES = sorted(place for place in (DATA / "frr-cases").iterdir() if place.is_dir())


def lines_of(path):
    """The lines of a file of a case; none where the case has no such file."""
    return [line for line in path.read_text().split("\n") if line] if path.exists() else []


def plain(attributes):
    """What `path=.. med=.. pref=..` says, or is meant by where it is absent. Other attributes are not compared."""
    said = dict(word.split("=", 1) for word in attributes)
    return said["path"], said.get("med", "-").replace("-", "0"), said.get("pref", "100")


def table(lines):
    """Lines `ROUTER PREFIX from SOURCE ..`, by router and prefix."""
    found = {}
    for router, prefix, _, source, *attributes in map(str.split, lines):
        found[router, prefix] = (source, *plain(attributes))
    return found


class FrrCases(Case):
    def converged(self, script, feeds):
        """What the routers of a script choose after the feeds, as lines of `expected`."""
        names = dict(line.split()[2:4] for line in script if line.startswith("# name "))
        addresses = {name: address for address, name in names.items()}
        # A route that is told over a session that does not stand goes nowhere.
        said = script + [" ".join(addresses.get(word, word) for word in line.split()) + " # expect refused" for line in feeds]
        done = inside("converge", "--at-end", self.file("now.bgp", "\n".join(said) + "\n"))
        self.assertEqual(done.returncode, 0, done.stderr)
        found = []
        for router in [line.split()[1] for line in script if line.startswith("router ")]:
            replies = program(done.stdout + "quiet\nroutes %s\n" % router)
            here = replies[len(replies) - replies[::-1].index("yes"):-1]
            found += [" ".join(names.get(word, word) for word in [router] + line.split()) for line in here]
        return found

    def net(self, place):
        """The configurations of a case; a copy with its symbolic links where it has some."""
        links = [line.split() for line in lines_of(place / "links")]
        if not links:
            return place / "net"
        copy = self.folder / place.name
        shutil.copytree(place / "net", copy)
        for name, target in links:
            (copy / name).symlink_to(target)
        return copy

    def assert_case(self, place):
        made = inside("from-frr", self.net(place))
        told = [line for line in made.stderr.split("\n") if line]
        for wanted in lines_of(place / "told"):
            if not any(re.search(wanted, line) for line in told):
                self.fail("nothing that is told holds %s:\n%s" % (wanted, made.stderr))
        for unwanted in lines_of(place / "not-told"):
            self.assertEqual([line for line in told if re.search(unwanted, line)], [])
        statuses = list(map(int, lines_of(place / "status"))) or [0, 1]
        self.assertIn(made.returncode, statuses, made.stderr)
        if made.returncode == 2:
            self.assertEqual(made.stdout, "")
            return
        wanted = table(line for line in lines_of(place / "expected") if not line.endswith(" none"))
        given = table(self.converged(made.stdout.split("\n"), lines_of(place / "feeds")))
        excepted = {tuple(line.split()) for line in lines_of(place / "excepted")}
        differing = {key for key in wanted.keys() | given.keys() if wanted.get(key) != given.get(key)}
        wrong = sorted(differing - excepted)
        self.assertEqual([(key, given.get(key)) for key in wrong], [(key, wanted.get(key)) for key in wrong],
                         made.stderr)
        if differing:
            said = "in silence: %s\n%s" % (sorted(differing), made.stderr)
            self.assertEqual((made.returncode, bool(told)), (1, True), said)

    def test_all_cases(self):
        self.assertGreater(len(CASES), 12)
        for place in CASES:
            with self.subTest(case=place.name):
                self.assert_case(place)
                sys.stderr.flush()
