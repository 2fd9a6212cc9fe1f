"""What hypothesis draws for the tests: words, lines and scripts of the language, and networks."""
from hypothesis import settings, strategies

from bgptools.program import language

# For a property that starts programs: a quarter of the examples that the profile asks for.
few = settings(max_examples=settings().max_examples // 4)
# And where many kinds of input are drawn.
many = settings(max_examples=settings().max_examples * 3)
numbers = strategies.integers(0, 2 ** 32 - 1)
ases = strategies.integers(1, 2 ** 32 - 1)
addresses = numbers.map(language.show_address)


def _masked(drawn):
    value, length = drawn
    return language.show_prefix((value >> 32 - length << 32 - length, length))


prefixes = strategies.tuples(numbers, strategies.integers(0, 32)).map(_masked)
_sequences = strategies.lists(ases, min_size=1, max_size=4).map(lambda found: ",".join(map(str, found)))
_sets = strategies.sets(ases, min_size=1, max_size=4).map(lambda found: "{%s}" % ",".join(map(str, sorted(found))))
paths = strategies.just("-") | strategies.lists(_sequences | _sets, min_size=1, max_size=3).map("_".join)
communities = strategies.sets(numbers, min_size=1, max_size=5).map(lambda found: ",".join(map(str, sorted(found))))
_metrics = strategies.integers(1, 65535).map(str)
# The words that stand where a form of the language has one of these.
_WORDS = {**dict.fromkeys(language.ADDRESSES, addresses), "P": prefixes, "N": ases.map(str), "M": _metrics,
          "PATH": paths, "ORIGIN": strategies.sampled_from(("igp", "egp", "inc")),
          "MED": strategies.just("-") | numbers.map(str), language.COMMUNITIES: communities.map("comm=".__add__)}
_matches = strategies.one_of(
    strategies.just("any"), prefixes.map("is ".__add__), prefixes.map("under ".__add__),
    ases.map("path {}".format), ases.map("first {}".format), numbers.map("comm {}".format))


def _word(wanted):
    """A word that stands where a form has this one."""
    return _WORDS[wanted] if wanted in _WORDS else strategies.sampled_from(wanted.split("|"))


@strategies.composite
def _actions(draw):
    """`deny`, or `permit` with some settings in their order."""
    chosen = draw(strategies.lists(strategies.sampled_from(language.SETTINGS), unique=True))
    words = ["%s=%d" % (setting.name, draw(strategies.integers(setting.low, setting.high)))
             for setting in language.SETTINGS if setting in chosen]
    return draw(strategies.sampled_from(("deny", " ".join(["permit", *words]))))


@strategies.composite
def commands(draw):
    """A command of the language."""
    form = draw(strategies.sampled_from(language.FORMS))
    if form.words[0] == "rule":
        words = [draw(addresses), draw(addresses), draw(strategies.sampled_from(("in", "out")))]
        return " ".join(["rule", *words, draw(_matches), draw(_actions())])
    count = draw(strategies.integers(form.least, len(form.words)))
    return " ".join([form.words[0], *(draw(_word(word)) for word in form.words[1:count])])


printable = strategies.characters(min_codepoint=32, max_codepoint=126)
# What a word is nearly, of each kind.
_NEAR = {**dict.fromkeys(language.ADDRESSES, ("1.0.0.256", "1.0.0", "01.0.0.1", "1.0.0.1.1", "1.0.0.1/32")),
         "P": ("10.0.0.0/33", "10.0.0.1/8", "10.0.0.0", "10.0.0.0/08"), "N": ("0", "4294967296", "01"),
         "M": ("0", "65536", "05"), "PATH": ("7_", "{3,2}", "{3,3}", "{}", "0", "7,,8"),
         "ORIGIN": ("EGP", "incomplete"), "MED": ("-1", "4294967296", "00"),
         language.COMMUNITIES: ("comm=", "comm=6,5", "comm=5,5", "comm=1,4294967296")}
_ODD = language.NAMES + ("", "on", "in", "any", "permit", "deny", "pref=5", "prepend=0", "prepend=17", "med=-1", "add=",
                         "-", "0", "00", "4294967296", "update", "withdraw", "igp", "#")


@strategies.composite
def near(draw):
    """A command with one word that is nearly what its form has there."""
    forms = [form for form in language.FORMS if set(form.words) & set(_NEAR) and form.words[0] != "rule"]
    form = draw(strategies.sampled_from(forms))
    words = [draw(_word(word)) for word in form.words[1:]]
    at = draw(strategies.sampled_from([at for at, word in enumerate(form.words[1:]) if word in _NEAR]))
    words[at] = draw(strategies.sampled_from(_NEAR[form.words[at + 1]]))
    return " ".join([form.words[0], *words])


@strategies.composite
def malformed(draw):
    """A command of which a word was taken away, put in, or put in the place of another."""
    words = draw(commands()).split(" ")
    at = draw(strategies.integers(0, len(words)))
    words[at:at + draw(strategies.integers(0, 1))] = draw(
        strategies.lists(strategies.sampled_from(_ODD) | strategies.text(printable, max_size=6), max_size=1))
    return " ".join(words)


@strategies.composite
def plain_networks(draw):
    """A network in which each order of delivery leads to the same routes: a router an AS, and no policy. A link or two
    fail in the end."""
    count = draw(strategies.integers(2, 6))
    routers = ["%d.0.0.1" % number for number in range(1, count + 1)]
    lines = ["router %s %d" % (router, number) for number, router in enumerate(routers, 1)]
    ends = [(one, other) for at, one in enumerate(routers) for other in routers[at + 1:]]
    chosen = draw(strategies.lists(strategies.sampled_from(ends), min_size=1, unique=True))
    for one, other in chosen:
        lines += ["link %s %s 1" % (one, other), "join %s %s" % (one, other)]
    origins = draw(strategies.lists(strategies.tuples(strategies.sampled_from(routers), strategies.integers(0, 2)),
                                    min_size=1, max_size=4, unique=True))
    lines += ["origin %s 10.%d.0.0/16" % each for each in origins]
    failing = draw(strategies.lists(strategies.sampled_from(chosen), max_size=2, unique=True))
    return lines, ["fail %s %s" % each for each in failing]
