"""Values that attacks send, or look for."""

# A worker is told this much of its surroundings.
WORKER_ENVIRONMENT = {"PATH", "LANG", "LC_ALL", "LC_CTYPE", "BGPSIM_UNPROVED", "PROGRAM", "BGPSIM_JOB",
                      # these are the shell's own
                      "PWD", "OLDPWD", "SHLVL", "_"}
ODD_IDS = ("[" * 980 + "]" * 980, '{"a": {"b": 1}}', "true", "[1]", "1e400", "NaN", "1" * 400, '"%s"' % ("x" * 65),
           '"\\u0000"', '"\\ud800"', '"a\\nb"', "-9223372036854775809", "[" * 100000, '{"id": ' * 3000)
# Each word of the protocol, with fields that fit.
WORDS = {"call": {"line": "origin 1.0.0.1 66.0.0.0/8"}, "ask": {"line": "quiet"}, "script": {"from": 0}, "waiting": {},
         "next": {},
         "watch": {"what": "all"}, "who": {}, "blame": {"router": "1.0.0.1"}, "undo": {}, "pause": {}, "go": {},
         "pace": {"a_second": 5}, "step": {"count": 5}, "wait": {},
         "propose": {"name": "x", "lines": ["fail 1.0.0.1 2.0.0.1"]},
         "proposals": {}, "accept": {"number": 1}, "decline": {"number": 1}, "check": {}, "free": {"name": "anna"},
         "enter": {"as": "anna"}, "show": {"step": 1}}
# What is no note beside a log.
ODD_NOTES = (
    b"\xff\xfe\n", b"\0\n", b"{\n", b"[" * 100000 + b"\n", b'{"seat": ' * 50000 + b"\n", b"null\n",
    b"5\n", b"[]\n",
    b'"x"\n', b"{}\n", b'{"seat": "2"}\n', b'{"seat": 2, "name": 5}\n',
    b'{"seat": true, "name": "a"}\n',
    b'{"seat": 1e400, "name": "a"}\n', b'{"seat": 256, "name": "a"}\n', b'{"seat": -1, "name": "a"}\n',
    b'{"seat": ' + b"1" * 5000 + b', "name": "a"}\n', b'{"seat": 2, "name": "a\\nb"}\n',
    b'{"seat": 2, "name": "\\u001b[2J"}\n',
    b'{"seat": 2, "name": "the script"}\n{"seat": 0, "name": "the script"}\n',
    b'{"seat": 2, "name": "a"}\n{"seat": 3, "name": "a"}\n',
    b'{"seat": 2, "name": "a", "token": "x"}\n',
    b'{"seat": 2, "name": "a", "token": []}\n', b'{"entry": 1, "at": "now"}\n',
    b'{"entry": 1, "at": NaN}\n',
    b'{"entry": 1, "at": 1e999}\n', b'{"entry": 1, "at": 1, "by": {}}\n',
    b'{"router": "router 1.0.0.1 1", "behind": 0}\n',
    b'{"router": "# name 1.0.0.1 a\\nb", "behind": 0}\n', b'{"seat": 2, "entry": 1}\n',
    b"x" * 10000000)


def prefixes(count):
    """The lines of a router that originates so many prefixes."""
    return ["router 1.0.0.1 1"] + ["origin 1.0.0.1 10.%d.%d.0/24" % divmod(number, 250) for number in range(count)]
