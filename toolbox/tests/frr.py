"""Small FRR configurations, and what from-frr makes of them."""
from common import Case, inside


def router(asn, own, *interfaces, bgp=(), more=(), ospf="10.0.0.0/8"):
    """A configuration: each interface is `eth0 10.0.0.1/30`, with a cost behind it if one is wanted."""
    lines = ["interface lo", " ip address %s/32" % own]
    for each in interfaces:
        name, where, *cost = each.split()
        lines += ["interface " + name, " ip address " + where] + [" ip ospf cost " + number for number in cost]
    lines += ["router ospf", " network %s area 0" % ospf] if ospf else []
    lines += ["router bgp %d" % asn, " bgp router-id " + own, " no bgp ebgp-requires-policy",
              " bgp bestpath compare-routerid", " bgp deterministic-med"] if asn else []
    return "\n".join([*lines, *(" " + line for line in bgp), *more]) + "\n"


class Told(Case):
    """Single configurations: what is written and what is told of each."""

    def convert(self, files, *words, status=None):
        """from-frr on these files, without a process of its own."""
        self.count = getattr(self, "count", 0) + 1
        place = self.folder / str(self.count)
        for name, text in files.items():
            self.file("%d/%s" % (self.count, name), text)
        made = inside("from-frr", place, *words)
        made.stderr = made.stderr.replace(str(place) + "/", "")
        if status is not None:
            self.assertEqual(made.returncode, status, made.stderr)
        return made

    def assert_told(self, made, file, line, *said):
        """A line of the file is told, with these words."""
        found = [each for each in made.stderr.split("\n") if each.startswith("%s:%d: not taken over: " % (file, line))]
        self.assertTrue(any(all(word in each for word in said) for each in found), "%s:%d %s in\n%s" % (
            file, line, said, made.stderr))

    def assert_quiet(self, made):
        """Nothing is left out, and the status says so."""
        self.assertNotIn("not taken over", made.stderr)
        self.assertEqual(made.returncode, 0)

    def rules(self, made, ends):
        """The rules of a policy, each without its beginning."""
        head = "rule %s " % ends
        return [line[len(head):] for line in made.stdout.split("\n") if line.startswith(head)]

    def policy(self, *lines, filters=("route-map M in",), status=0, network=()):
        """The rules of a border with these lists and maps, for what comes from AS 65002, and what was told."""
        text = border("neighbor 10.0.0.2 next-hop-self", *("neighbor 10.9.0.2 " + each for each in filters),
                      more=lines)
        made = self.convert({"a.conf": text, "b.conf": inner(), "c.conf": OUTSIDE, **dict(network)}, status=status)
        self.text = text
        return made

    def in_rules(self, *lines, **given):
        return self.rules(self.policy(*lines, **given), "10.0.0.1 10.0.0.9 in")


def at(text, line):
    """The number of the first line of a configuration that is this one."""
    return [each.strip() for each in text.split("\n")].index(line) + 1


OUTSIDE = router(65002, "10.0.0.9", "eth0 10.9.0.2/30", bgp=["neighbor 10.9.0.1 remote-as 65001"])


def border(*bgp, more=(), ospf="10.0.0.0/16", interfaces=()):
    """A border router of AS 65001: eth0 leads to its interior, eth1 to AS 65002."""
    return router(65001, "10.0.0.1", "eth0 10.0.1.1/30", "eth1 10.9.0.1/30", *interfaces, ospf=ospf, more=more,
                  bgp=["neighbor 10.9.0.2 remote-as 65002", "neighbor 10.0.0.2 remote-as internal",
                       "neighbor 10.0.0.2 update-source lo", *bgp])


def inner(*bgp, interfaces=(), more=()):
    """A router behind it."""
    return router(65001, "10.0.0.2", "eth0 10.0.1.2/30", *interfaces, bgp=["neighbor 10.0.0.1 remote-as internal",
        "neighbor 10.0.0.1 update-source lo", *bgp], ospf="10.0.0.0/16", more=more)
