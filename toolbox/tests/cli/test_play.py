"""play: scripts, and a prompt typed at a pseudo-terminal."""
import fcntl
import itertools
import os
import pty
import re
import select
import signal
import subprocess
import sys
import termios
import time

from common import PATIENCE, SCRIPTS, TOOLBOX, TOP, Case, inside, marked, program, tool

OSCILLATION = TOP / "examples" / "lessons" / "med-oscillation.bgp"
NETWORK = ("router 1.0.0.1 1", "router 2.0.0.1 2", "link 1.0.0.1 2.0.0.1 1", "join 1.0.0.1 2.0.0.1", "origin 1.0.0.1 10.0.0.0/8")
# The worked example of communities: 8 is not told what 7 sends with NO_EXPORT, and the rest with another community.
NINE = ("router 9.0.0.1 9", "virtual 7.0.0.1 7", "virtual 8.0.0.1 8", "link 9.0.0.1 7.0.0.1 1",
        "link 9.0.0.1 8.0.0.1 1", "join 9.0.0.1 7.0.0.1", "join 9.0.0.1 8.0.0.1",
        "feed 7.0.0.1 9.0.0.1 update 10.0.0.0/8 7 igp - comm=4294967041",
        "deliver 7.0.0.1 9.0.0.1", "best 9.0.0.1 10.0.0.0/8", "feed 7.0.0.1 9.0.0.1 update 11.0.0.0/8 7 igp - comm=5",
        "deliver 7.0.0.1 9.0.0.1", "rule 9.0.0.1 8.0.0.1 out any permit add=3", "queue 9.0.0.1 8.0.0.1",
        "out 9.0.0.1 8.0.0.1")
# Runs the program. Once, between the delivery of this number and its reply, it notes its session and that of play, and does this.
BETWEEN = """#!%s
import os, pathlib, sys, time
sys.dont_write_bytecode = True
sys.path.insert(0, %r)
os.environ["PROGRAM"] = %r
from bgptools.program.process import Program
inner, here, count = Program(), pathlib.Path(%r), 0
for line in sys.stdin.buffer:
    line = line.decode("latin-1")[:-1]
    reply = inner.request(line)
    count += sum(each.startswith("took ") for each in reply)
    if count >= %d and not here.exists():
        here.write_text("%%d %%d" %% (os.getsid(0), os.getsid(os.getppid())))
        %s
    print("".join(each + "\\n" for each in reply), end="", flush=True)
"""


class Scripts(Case):
    def test_each_script_has_the_program_s_replies(self):
        for path in SCRIPTS:
            with self.subTest(path=path):
                told = inside("play", path)
                content = path.read_bytes()
                lines = [line[8:] for line in told.stdout.split("\n") if line.startswith(" " * 8)]
                shown = re.compile(r"(comms=[0-9,]+) \([^)]*\)$")
                replies = [shown.sub(r"\1", line) for line in lines if not line.startswith("--")]
                self.assertEqual(replies, program(content))
                refused = sum(line.startswith("refused") for line in replies)
                self.assertEqual(told.returncode, 1 if marked(content)[1] else 0)
                said = [line for line in lines if line.startswith("-- ") and not line.startswith("-- not told to ")]
                self.assertEqual(len(said), refused)

    def test_line_numbers(self):
        told = tool("play", "-", given=b"# one\n\nrouter 1.0.0.1 1\r\n  quiet", status=0).stdout
        self.assertEqual(told, "      # one\n\n   3  router 1.0.0.1 1\n        ok\n   4    quiet\n        yes\n2 commands, 0 refused\n")

    def test_refusals_that_are_marked(self):
        script = b"router 1.0.0.1 1\n# expect refused 3\nrouter 1.0.0.1 1\nrouter 1.0.0 1 # expect refused\n"
        told = tool("play", "-", given=script, status=0).stdout
        self.assertIn("-- 1.0.0.1 is there already: a router of AS 1 (expected)", told)
        self.assertTrue(told.endswith("3 commands, 2 refused (as expected)\n"))
        tool("play", "-", given=b"# expect refused 4\nrouter 1.0.0.1\n", status=1)
        told = tool("play", "-", given=b"# expect refused\nquiet\n", status=1).stdout
        self.assertIn("expected to be refused", told)

    def test_sentences(self):
        told = tool("play", "examples/tour.bgp", status=0).stdout
        for number, sentence in ((13, "prepend=1 on the way in, on the session of 5.0.0.1 and 7.0.0.1"), (9, "an external session needs a link"),
                                 (18, "the path 8 does not begin with AS 7, the AS of 7.0.0.1"), (19, "256 AS numbers")):
            self.assertRegex(told, r"refused %d [a-z-]+\n        -- [^\n]*%s" % (number, re.escape(sentence)))

    def test_faults_of_syntax(self):
        for line, text in ((b"router\t1.0.0.1 1", "a tab is no space"), (b"rooter 1.0.0.1 1", "there is no command `rooter`"),
                           (b"origin 1.0.0.1 10.0.0.1/8", "no bit set behind its length"), (b"link 1.0.0.1 1.0.0.2 0", "a metric, 1 to 65535"),
                           (b"rule 1.0.0.1 1.0.0.2 in any permit med=1 pref=1", "in this order"), (b"client 1.0.0.1 1.0.0.2 yes", "`on or off`"),
                           (b"feed 1.0.0.1 1.0.0.2 update 10.0.0.0/8 1,2 igp", "a word is missing")):
            with self.subTest(line=line):
                self.assertIn("-- ", tool("play", "-", given=line, status=1).stdout)
                self.assertIn(text, tool("play", "-", given=line, status=1).stdout)

    def played(self, lines, status=0):
        """What play tells of these lines."""
        return tool("play", "-", given="\n".join(lines).encode(), status=status).stdout

    def test_communities_are_shown_beside_their_numbers(self):
        """The replies are those of the worked example of the language, and behind each set stands what it is."""
        told = self.played(NINE)
        self.assertEqual([line[8:] for line in told.split("\n") if "comms=" in line], [
            "10.0.0.0/8 from 7.0.0.1 path=7 origin=igp next=7.0.0.1 med=- pref=100 oid=- clusters=- "
            "comms=4294967041 (NO_EXPORT)",
            "update 11.0.0.0/8 path=9,7 origin=igp next=9.0.0.1 med=- pref=- oid=- clusters=- comms=5 (0:5)",
            "update 11.0.0.0/8 path=9,7 origin=igp next=9.0.0.1 med=- pref=- oid=- clusters=- comms=3,5 (0:3 0:5)",
            "11.0.0.0/8 path=9,7 origin=igp next=9.0.0.1 med=- pref=- oid=- clusters=- comms=3,5 (0:3 0:5)"])
        self.assertIn("  feed 7.0.0.1 9.0.0.1 update 10.0.0.0/8 7 igp - comm=4294967041\n", told)

    def test_what_a_community_keeps_from_a_peer_is_told_after_out(self):
        """But not where the session is down, the route is not chosen, or came from the peer itself."""
        text = "        end 1\n        -- not told to 8.0.0.1, since it carries 4294967041 (NO_EXPORT): 10.0.0.0/8\n"
        denied = "rule 9.0.0.1 7.0.0.1 in comm 4294967041 deny"
        for more, count in (([], 1), (["stop 9.0.0.1 8.0.0.1"], 0), ([denied], 0)):
            told = self.played([*NINE[:-1], *more, NINE[-1], "out 9.0.0.1 7.0.0.1"])
            self.assertEqual((told.count(text), told.count("-- not told")), (count, count))

    def test_of_many_prefixes_that_are_kept_back_the_first_are_told(self):
        feed = "feed 7.0.0.1 9.0.0.1 update 20.%d.0.0/16 7 igp - comm=4294967042"
        lines = [line for n in range(15) for line in (feed % n, "deliver 7.0.0.1 9.0.0.1")]
        first = ", ".join("20.%d.0.0/16" % n for n in range(12))
        wanted = "not told to 8.0.0.1, since it carries 4294967042 (NO_ADVERTISE): %s and 3 more" % first
        self.assertIn("        end 0\n        -- %s\n" % wanted, self.played([*NINE[:7], *lines, NINE[-1]]))

    def test_refusals_about_communities(self):
        many = ",".join(map(str, range(33)))
        told = self.played([
            *NINE[:7], "router 9.0.0.2 9", "link 9.0.0.1 9.0.0.2 1", "join 9.0.0.1 9.0.0.2",
            "rule 9.0.0.1 9.0.0.2 out any permit add=5", "feed 7.0.0.1 9.0.0.1 update 10.0.0.0/8 7 igp - comm=" + many,
            "feed 7.0.0.1 9.0.0.1 update 10.0.0.0/8 7 igp - comm=5,5"], status=1)
        inside = "add=5 on the session of 9.0.0.1 and 9.0.0.2, which is internal: there a rule has no settings"
        for number, text in (("13 rule-not-allowed", inside),
                             ("19 limit", "the route has 33 communities, and at most 32 are taken"),
                             ("1 syntax", "`comm=5,5`: 5 after 5, where communities ascend and each stands once")):
            self.assertIn("        refused %s\n        -- %s\n" % (number, text), told)

    def test_converge(self):
        told = tool("play", "--converge", "-", given=b"router 1.0.0.1 1\nrouter 2.0.0.1 2\nlink 1.0.0.1 2.0.0.1 1\njoin 1.0.0.1 2.0.0.1\norigin 1.0.0.1 10.0.0.0/8\nquiet\n")
        self.assertIn("        deliver 1.0.0.1 2.0.0.1: took 10.0.0.0/8 update\n   6  quiet\n        yes\n", told.stdout)

    def test_a_converge_that_does_not_end_shows_its_last_deliveries(self):
        told = tool("play", "--converge", "--most", "300", OSCILLATION, status=1).stdout
        end = told[:told.index("-- in the fair order the same state comes back")].split("\n")[:-1]
        self.assertRegex(end[-21], "^        [0-9]+ deliveries, and then$")
        self.assertTrue(all(line.startswith("        deliver ") for line in end[-20:]))

    def test_names(self):
        script = b"# name 1.0.0.1 y1\n" + b"".join(line.encode() + b"\n" for line in NETWORK) + b"best 1.0.0.1 10.0.0.0/8\njoin 1.0.0.1 2.0.0.1\n# name 2.0.0.1 K\xc3\xb6ln\nqueue 1.0.0.1 2.0.0.1\ncost 1.0.0.1 2.0.0.1\n"
        told = tool("play", "-", given=script, status=1).stdout
        self.assertIn("        10.0.0.0/8 from self path=- origin=igp next=y1 (1.0.0.1) med=", told)
        self.assertIn("        -- y1 (1.0.0.1) and 2.0.0.1 have a session already\n", told)
        self.assertIn("        1 via Köln (2.0.0.1)\n", told)
        self.assertIn("join 1.0.0.1 2.0.0.1\n", told)

    def test_mistakes(self):
        self.assertIn("missing.bgp: it cannot be read", tool("play", "missing.bgp", status=2).stderr)
        long = self.file("long.bgp", "quiet\n" + "x" * 70000)
        self.assertIn("long.bgp:2: a line of 70000 bytes", tool("play", long, status=2).stderr)


class Typed:
    """play, or another tool, at a pseudo-terminal, which is its terminal."""

    def __init__(self, folder, *words, tool="play", **environment):
        self.main, side = pty.openpty()
        # Else the terminal forgets, at Ctrl-C, what was shown just before and after it.
        modes = termios.tcgetattr(side)
        modes[3] |= termios.NOFLSH
        termios.tcsetattr(side, termios.TCSANOW, modes)
        self.process = subprocess.Popen(
            [sys.executable, "-B", str(TOOLBOX / tool), *words], stdin=side, stdout=side, stderr=side, cwd=str(folder), start_new_session=True,
            env={**os.environ, "TERM": "dumb", "XDG_STATE_HOME": str(folder / "state"),
                 "INPUTRC": os.devnull, **environment},
            preexec_fn=lambda: fcntl.ioctl(0, termios.TIOCSCTTY, 0))
        os.close(side)
        self.shown = ""

    def more(self, seconds=0.3):
        """What is shown and was not asked for until now, after some time for it."""
        if select.select([self.main], [], [], max(0, seconds))[0]:
            try:
                self.shown += os.read(self.main, 4096).decode("utf-8", "replace").replace("\r", "")
            except OSError:
                raise AssertionError("ended, with %r" % self.shown) from None
        return self.shown

    def until(self, text, seconds=PATIENCE):
        """What is shown until the text has been."""
        last = time.monotonic() + seconds
        while text not in self.shown:
            if time.monotonic() > last:
                raise AssertionError("not shown: %r, but %r" % (text, self.shown))
            self.more(last - time.monotonic())
        shown, self.shown = self.shown, ""
        return shown

    def type(self, text, wanted="bgpsim> "):
        """Types the text and waits for what is wanted, which is the prompt."""
        os.write(self.main, text if isinstance(text, bytes) else text.encode())
        return self.until(wanted)

    def end(self, status=0):
        """Types the end, and waits for it."""
        os.write(self.main, b"quit\n")
        if self.process.wait(PATIENCE) != status:
            raise AssertionError("it ended with status %d" % self.process.returncode)

    def close(self):
        """Takes the terminal away."""
        os.close(self.main)
        self.process.wait(PATIENCE)


class AtPrompt(Case):
    """A test with a prompt."""

    def setUp(self):
        super().setUp()
        self.typed = self.start()

    def start(self, *words, **environment):
        """A prompt."""
        typed = Typed(self.folder, *words, **environment)
        self.addCleanup(typed.close)
        self.shown = typed.until("bgpsim> ")
        return typed

    def between(self, delivery, does):
        """A program that does something at the delivery of this number, once."""
        self.here = self.folder / "here"
        path = self.file("between", BETWEEN % (sys.executable, str(TOOLBOX), os.environ["PROGRAM"], str(self.here), delivery, does))
        path.chmod(0o755)
        return str(path)

    def network(self, *more):
        for line in NETWORK + more:
            self.assertIn("    ok\n", self.typed.type(line + "\n"))


class Prompt(AtPrompt):
    def test_commands_and_refusals(self):
        self.assertIn("    ok\n", self.typed.type("router 1.0.0.1 1\n"))
        self.assertIn("-- both ends are 1.0.0.1", self.typed.type("link 1.0.0.1 1.0.0.1 1\n"))
        self.assertIn("link A B M", self.typed.type("?\n"))
        shown = self.typed.type("? rule\n")
        for word in ("prepend=K", "add=K", "comm C", "65000:1 is 65000 x 65536 + 1, 4259840001"):
            self.assertIn(word, shown)
        self.assertIn("  feed V R update P PATH ORIGIN MED [comm=C,..] ", self.typed.type("? feed\n"))
        self.assertIn("  med A as|always  ", self.typed.type("? med\n"))

    def test_converge_undo_and_save(self):
        self.network()
        self.assertIn("quiet after 1 delivery", self.typed.type("converge\n"))
        self.typed.type("noorigin 1.0.0.1 10.0.0.0/8\n")
        self.assertIn("quiet after 1", self.typed.type("converge\n"))
        self.assertIn("none", self.typed.type("best 2.0.0.1 10.0.0.0/8\n"))
        self.assertIn("undone: noorigin", self.typed.type("undo\n"))
        self.assertIn("from 1.0.0.1 path=1", self.typed.type("best 2.0.0.1 10.0.0.0/8\n"))
        self.assertIn("7 lines in out.bgp", self.typed.type("save out.bgp\n"))
        self.assertEqual(program((self.folder / "out.bgp").read_text() + "quiet\n")[-1], "yes")
        self.typed.end()

    def test_history_and_completion(self):
        self.network()
        self.assertIn("link 1.0.0.1 ", self.typed.type("lin\t1\t\n"))
        self.assertIn("    10.0.0.0/8 from self", self.typed.type("bes\t1\t10\t\n"))
        shown = self.typed.type("\x1b[A\n")
        self.assertIn("    10.0.0.0/8 from self", shown)

    def test_end_of_input(self):
        os.write(self.typed.main, b"\x04")
        self.assertEqual(self.typed.process.wait(PATIENCE), 0)

    def test_bytes_that_are_no_text(self):
        typed = self.start(PYTHONIOENCODING="utf-8:strict")
        self.assertIn("    -- the line holds a byte that no command has, '\\xff'", typed.type(b"rout\xff\n"))
        self.assertIn("    ok\n", typed.type("router 1.0.0.1 1\n"))


class Words(AtPrompt):
    def test_all_are_listed(self):
        listed = self.typed.type("?\n")
        for word in ("next", "converge", "undo", "name A N", "load FILE", "explain R P", "draw FILE", "what-if FILE", "save FILE", "quit"):
            with self.subTest(word=word):
                self.assertIn("\n  %s " % word, listed)
                self.assertIn("  %s " % word, self.typed.type("? %s\n" % word.split(" ")[0]))
        self.assertIn("-- there is no command `nothing`", self.typed.type("? nothing\n"))

    def test_next_gives_one_of_each_queue_a_round(self):
        self.network("origin 1.0.0.1 11.0.0.0/8", "origin 2.0.0.1 20.0.0.0/8")
        for told in ("deliver 1.0.0.1 2.0.0.1: took 10.0.0.0/8 update", "deliver 2.0.0.1 1.0.0.1: took 20.0.0.0/8 update",
                     "deliver 1.0.0.1 2.0.0.1: took 11.0.0.0/8 update", "quiet: no message waits"):
            self.assertIn("    " + told + "\n", self.typed.type("next\n"))
        self.typed.type("save out.bgp\n")
        self.assertEqual((self.folder / "out.bgp").read_text().count("deliver"), 3)

    def test_tab_after_deliver_offers_what_waits(self):
        self.network("router 3.0.0.1 3", "link 1.0.0.1 3.0.0.1 1", "join 1.0.0.1 3.0.0.1")
        self.typed.type("deliver 1.0.0.1 2.0.0.1\n")
        self.assertIn("    took 10.0.0.0/8 update\n", self.typed.type("deliver \t\t\n"))
        self.assertIn("from 1.0.0.1 path=1 ", self.typed.type("best 3.0.0.1 10.0.0.0/8\n"))
        self.assertIn("    refused 1 syntax\n", self.typed.type("deliver \t\t\n"))
        for line in ("# name 3.0.0.1 y3", "origin 3.0.0.1 30.0.0.0/8"):
            self.typed.type(line + "\n")
        self.assertIn("    took 30.0.0.0/8 update\n", self.typed.type("deliver \t\t\n"))

    def test_load(self):
        self.file("net.bgp", "# name 1.0.0.1 y1\n" + "\n".join(NETWORK) + "\nfail 1.0.0.1 3.0.0.1\n# expect refused\njoin 1.0.0.1 2.0.0.1\nquiet\n")
        told = self.typed.type("load net\t\n")
        self.assertIn("    net.bgp:7: refused 2 no-router: there is no router or virtual peer 3.0.0.1\n    8 commands of net.bgp, 2 refused\n", told)
        self.assertIn("    took 10.0.0.0/8 update\n", self.typed.type("deliver y1 2.0.0.1\n"))
        self.typed.type("save out.bgp\n")
        self.assertEqual((self.folder / "out.bgp").read_text().split("\n")[:6], ["# name 1.0.0.1 y1", *NETWORK])
        tool("play", self.folder / "out.bgp", status=0)
        self.assertIn("    -- none.bgp: it cannot be read: No such file", self.typed.type("load none.bgp\n"))

    def test_explain_draw_and_what_if(self):
        self.network()
        self.file("more.change", "origin 2.0.0.1 20.0.0.0/8\n")
        self.assertIn("10.0.0.0/8 at 2.0.0.1: no route", self.typed.type("explain 2.0.0.1 10.0.0.0/8\n"))
        self.typed.type("converge\n")
        self.assertRegex(self.typed.type("explain 2.0.0.1 10.0.0.0/8\n"), r"10\.0\.0\.0/8 at 2\.0\.0\.1: 1 route\n +from 1\.0\.0\.1 +chosen")
        self.assertIn("    drawn in net.dot", self.typed.type("draw net.dot --prefix 10.0.0.0/8\n"))
        self.assertIn("from 1.0.0.1\\npath 1", (self.folder / "net.dot").read_text())
        self.assertIn("20.0.0.0/8", self.typed.type("what-if more.change\n"))
        self.assertIn("    none\n", self.typed.type("best 2.0.0.1 20.0.0.0/8\n"))
        self.file("bad.change", "join 1.0.0.1 2.0.0.1\n")
        self.assertIn("    -- bad.change:1: refused 11", self.typed.type("what-if bad.change\n"))
        self.assertIn("    -- nothing was done\n", self.typed.type("draw net.dot --odd\n"))
        self.assertIn("    yes\n", self.typed.type("quiet\n"))

    def test_communities(self):
        self.file("nine.bgp", "".join(line + "\n" for line in NINE[:-2]))
        self.assertIn(" 0 refused", self.typed.type("load nine.bgp\n"))
        kept = "-- not told to 8.0.0.1, since it carries 4294967041 (NO_EXPORT): 10.0.0.0/8"
        told = self.typed.type("out 9.0.0.1 8.0.0.1\n")
        self.assertIn(" comms=3,5 (0:3 0:5)\n    end 1\n    %s\n" % kept, told)
        self.assertIn("    -- `65000:1` is not a community, one number of 0 to 4294967295: 65000:1 is 4259840001\n",
                      self.typed.type("feed 7.0.0.1 9.0.0.1 update 12.0.0.0/8 7 igp - comm=65000:1\n"))
        self.typed.type("name 8.0.0.1 peer\n")
        told = self.typed.type("explain 9.0.0.1 10.0.0.0/8 --to peer\n")
        self.assertIn("10.0.0.0/8 at 9.0.0.1: not advertised to peer (8.0.0.1)\n", told)
        kept = "it carries 4294967041 (NO_EXPORT): such a route is told to no other AS (peer (8.0.0.1) is in AS 8)"
        self.assertIn("  %s\n" % kept, told)
        self.assertIn("    ok\n", self.typed.type("rule 9.0.0.1 8.0.0.1 in comm 5\tdeny\n"))

    def test_converge_that_does_not_end(self):
        typed = self.start("--most", "300")
        lines = itertools.takewhile(lambda line: not line.startswith("rule"), OSCILLATION.open())
        self.file("endless.bgp", "".join(line for line in lines if not line.startswith("deliver")))
        typed.type("load endless.bgp\n")
        told = typed.type("converge\n")
        self.assertEqual(told.count("    deliver "), 20)
        self.assertRegex(told, r"    [0-9]+ deliveries, and then\n")
        self.assertRegex(told, r"-- in the fair order the same state comes back every [0-9]+ deliveries; 203\.0\.113\.0/24 keeps changing")

    def test_names(self):
        self.network()
        self.typed.type("name 1.0.0.1 y1\n")
        self.assertIn("10.0.0.0/8 from self path=- origin=igp next=y1 (1.0.0.1) med=-", self.typed.type("routes y1\n"))
        self.assertIn("    deliver y1 (1.0.0.1) 2.0.0.1: took", self.typed.type("converge\n"))
        self.assertIn("-- y1 (1.0.0.1) and 2.0.0.1 have a session already", self.typed.type("join  y1 2.0.0.1\n"))
        self.typed.type("# name 2.0.0.1 hamburg\n")
        self.assertIn("    10.0.0.0/8 from y1 (1.0.0.1) path=1", self.typed.type("best ham\t10\t\n"))
        self.typed.type("save out.bgp\n")
        self.assertIn("\n# name 1.0.0.1 y1\nroutes 1.0.0.1\n", (self.folder / "out.bgp").read_text())

    def test_names_that_are_refused(self):
        self.network("router 3.0.0.1 3")
        self.typed.type("name 1.0.0.1 y1\n")
        for words, text in (("2.0.0.1 y1", "the name y1 is that of 1.0.0.1"), ("9.0.0.1 y2", "there is no router or virtual peer 9.0.0.1"),
                            ("2.0.0.1 5.0.0.1", "5.0.0.1 is an address"), ("2.0.0.1", "`name A N` is expected")):
            with self.subTest(words=words):
                self.assertIn("    -- " + text, self.typed.type("name %s\n" % words))
        self.typed.type("# name 2.0.0.1 y1\n")
        self.assertIn("    -- the name y1 is that of 1.0.0.1 and of 2.0.0.1; give the address", self.typed.type("routes y1\n"))


class Stops(AtPrompt):
    def chain(self, typed):
        """Five routers in a row, and a route that goes along it by four deliveries."""
        lines = ["router %d.0.0.1 %d" % (n, n) for n in range(1, 6)]
        lines += [made % (n, n + 1) for n in range(1, 5) for made in ("link %d.0.0.1 %d.0.0.1 1", "join %d.0.0.1 %d.0.0.1")]
        self.file("chain.bgp", "\n".join(lines + ["origin 5.0.0.1 10.0.0.0/8"]) + "\n")
        self.assertIn(" 0 refused", typed.type("load chain.bgp\n"))

    def stop(self, typed, command, wanted="-- waiting for the reply; a second Ctrl-C does not wait"):
        """Types a command, and Ctrl-C while it waits for a reply; what is shown until this is."""
        os.write(typed.main, command.encode() + b"\n")
        last = time.monotonic() + PATIENCE
        while not (self.here.exists() and self.here.read_text()):
            self.assertLess(time.monotonic(), last)
            time.sleep(0.01)
        return typed.type(b"\x03", wanted)

    def test_ctrl_c_ends_an_undo(self):
        typed = self.start(PROGRAM=self.between(1, "time.sleep(600) if here.with_name('armed').exists() else here.unlink()"))
        self.chain(typed)
        typed.type("deliver 5.0.0.1 4.0.0.1\n")
        typed.type("fail 1.0.0.1 2.0.0.1\n")
        self.file("armed", "")
        self.assertIn("    -- stopped\n", self.stop(typed, "undo", "bgpsim> "))
        self.assertIn("    none\n", typed.type("cost 1.0.0.1 2.0.0.1\n"))
        typed.type("save out.bgp\n")
        self.assertIn("\ndeliver 5.0.0.1 4.0.0.1\nfail 1.0.0.1 2.0.0.1\n", (self.folder / "out.bgp").read_text())
        (self.folder / "armed").unlink()
        self.here.unlink()
        self.assertIn("    undone: fail 1.0.0.1 2.0.0.1\n", typed.type("undo\n"))
        self.assertIn("    1 via 2.0.0.1\n", typed.type("cost 1.0.0.1 2.0.0.1\n"))

    def test_ctrl_c_ends_a_converge_and_not_the_network(self):
        typed = self.start(PROGRAM=self.between(2, "while not here.with_name('go').exists(): time.sleep(0.01)"))
        self.chain(typed)
        self.stop(typed, "converge")
        own, of_play = self.here.read_text().split(" ")
        self.assertNotEqual(own, of_play)
        self.file("go", "")
        told = typed.until("bgpsim> ")
        kept = int(re.search(r"    -- stopped; done until then, and kept: ([0-9]+)\n", told).group(1))
        self.assertGreaterEqual(kept, 2)
        self.assertNotIn("made anew", told)
        with_route = [n for n in range(1, 6) if "path=" in typed.type("best %d.0.0.1 10.0.0.0/8\n" % n)]
        self.assertEqual(with_route, list(range(5 - kept, 6)))
        self.assertRegex(typed.type("converge\n"), "    quiet after %d deliver" % (4 - kept))
        typed.type("save out.bgp\n")
        self.assertIn("from 2.0.0.1 path=2,3,4,5 ", program((self.folder / "out.bgp").read_text() + "best 1.0.0.1 10.0.0.0/8\n")[-1])
        typed.end()

    def test_a_second_ctrl_c_does_not_wait_for_the_reply(self):
        typed = self.start(PROGRAM=self.between(2, "time.sleep(600)"))
        self.chain(typed)
        self.stop(typed, "converge")
        told = typed.type(b"\x03")
        self.assertIn("    -- stopped\n    -- the network is made anew from what was accepted\n", told)
        self.assertIn("    none\n", typed.type("best 4.0.0.1 10.0.0.0/8\n"))
        self.assertIn("    took 10.0.0.0/8 update\n", typed.type("deliver 5.0.0.1 4.0.0.1\n"))
        self.assertIn("    1 via 2.0.0.1\n", typed.type("cost 1.0.0.1 2.0.0.1\n"))
        self.assertIn("    quiet after 3 deliveries\n", typed.type("converge\n"))

    def test_ctrl_c_ends_a_what_if(self):
        typed = self.start()
        self.chain(typed)
        os.mkfifo(self.folder / "change")
        os.write(typed.main, b"what-if change\n")
        writer = os.open(self.folder / "change", os.O_WRONLY)
        self.addCleanup(os.close, writer)
        self.assertIn("    -- stopped\n", typed.type(b"\x03", "stopped\n"))
        self.assertIn("    no\n", typed.type("quiet\n", "no\n"))

    def test_ctrl_c_while_nothing_runs(self):
        self.network()
        self.typed.type("rou", "rou")
        self.assertNotIn("stopped", self.typed.type(b"\x03"))
        self.assertIn("    no\n", self.typed.type("quiet\n"))

    def test_a_program_that_ends_is_run_anew(self):
        for does, how in (("os._exit(7)", "with status 7"), ("os.kill(os.getpid(), 9)", "by signal 9, Killed")):
            with self.subTest(how=how):
                typed = self.start(PROGRAM=self.between(2, does))
                self.chain(typed)
                self.assertIn("between: the program ended before it had answered, %s\n" % how, typed.type("converge\n"))
                self.assertIn("    quiet after 4 deliveries\n", typed.type("converge\n"))
                self.here.unlink()


class Restored(AtPrompt):
    def journals(self):
        """The journals that are there."""
        place = self.folder / "state" / "bgpsim"
        return sorted(set(place.glob("*")) - {place / "history"})

    def crash(self, typed):
        """Ends a prompt as a crash does."""
        os.kill(typed.process.pid, signal.SIGKILL)
        typed.process.wait(PATIENCE)

    def test_the_work_of_a_prompt_that_was_killed(self):
        self.network()
        self.typed.type("converge\n")
        self.typed.type("name 2.0.0.1 y2\n")
        self.typed.type("noorigin 1.0.0.1 10.0.0.0/8\n")
        self.typed.type("undo\n")
        self.crash(self.typed)
        self.assertEqual(len(self.journals()), 1)
        self.start().end()
        self.assertIn("A prompt that ended early left work behind: `play --restore` takes up the newest, %s.\n" % self.journals()[0], self.shown)
        typed = self.start("--restore")
        self.assertIn("7 lines of ", self.shown)
        self.assertIn("from 1.0.0.1 path=1", typed.type("best y2 10.0.0.0/8\n"))
        typed.end()
        self.assertEqual(self.journals(), [])

    def test_two_prompts_have_two_journals(self):
        self.network()
        other = self.start()
        self.assertNotIn("left work", self.shown)
        other.type("router 7.0.0.1 7\n")
        first, second = self.journals()
        self.assertEqual({first.read_text(), second.read_text()}, {"".join(line + "\n" for line in NETWORK), "router 7.0.0.1 7\n"})
        kept = next(path for path in (first, second) if "7.0.0.1" not in path.read_text())
        held = tool_at_terminal(self.folder, "--restore", str(kept))
        self.assertIn("it is the work of a prompt that still runs", held)
        self.crash(self.typed)
        self.crash(other)
        typed = self.start("--restore", str(kept))
        self.assertIn("    ok\n", typed.type("fail 1.0.0.1 2.0.0.1\n"))
        typed.end()
        self.assertEqual(len(self.journals()), 1)

    def test_a_terminal_that_is_taken_away_leaves_the_work(self):
        typed = Typed(self.folder)
        typed.until("bgpsim> ")
        typed.type("router 7.0.0.1 7\n")
        typed.close()
        self.assertEqual([path.read_text() for path in self.journals()], ["router 7.0.0.1 7\n"])

    def test_a_line_that_was_cut_off(self):
        kept = self.file("state/bgpsim/20260101-000000-1.bgp", "router 1.0.0.1 1\nrouter 2.0.0.1 1")
        typed = self.start("--restore")
        self.assertIn("-- the last line was cut off, and is left out: `router 2.0.0.1 1`", self.shown)
        self.assertIn("no router or virtual peer 2.0.0.1", typed.type("routes 2.0.0.1\n"))
        self.assertEqual(kept.read_text(), "router 1.0.0.1 1\n")

    def test_a_journal_that_cannot_be_written(self):
        self.file("odd", "")
        typed = Typed(self.folder)
        self.addCleanup(typed.close)
        typed.until("bgpsim> ")
        self.file("state", "no folder")
        told = typed.type("router 7.0.0.1 7\n")
        self.assertRegex(told, r"    -- what is typed from here on cannot be kept for `play --restore`: [A-Z][a-z ]+, .*/state/bgpsim\n")
        told = typed.type("router 8.0.0.1 8\n")
        self.assertEqual(told.count("    ok\n") - told.count("kept"), 1)
        typed.end()

    def test_nothing_to_restore(self):
        self.assertIn("there is no work of a prompt that ended early", tool_at_terminal(self.folder, "--restore"))
        self.assertIn("--restore is for a prompt", tool("play", "--restore", status=2).stderr)


def tool_at_terminal(folder, *words):
    """What play tells at a terminal where it ends by a mistake."""
    typed, shown = Typed(folder, *words), ""
    try:
        if typed.process.wait(PATIENCE) != 2:
            raise AssertionError("it ended with status %d" % typed.process.returncode)
        shown = os.read(typed.main, 4096).decode()
    finally:
        typed.close()
    return shown
