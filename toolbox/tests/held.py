"""Networks that are shared without a socket, for tests."""
from bgptools.session import replay
from bgptools.session.shared_network import Shared
from common import Case

TWO = ("router 1.0.0.1 1", "router 2.0.0.1 2", "link 1.0.0.1 2.0.0.1 1", "join 1.0.0.1 2.0.0.1")
PEER = ("router 1.0.0.1 1", "virtual 7.0.0.1 7", "link 1.0.0.1 7.0.0.1 1", "join 1.0.0.1 7.0.0.1")


class Held(Case):
    """A test with networks that are shared without a socket."""

    def setUp(self):
        super().setUp()
        self.log = self.folder / "net.log"
        self.tokens = {}

    def enter(self, shared, name):
        """The seat of somebody who enters, with the token that the name was given."""
        entered = shared.enter(name, self.tokens.get(name))
        self.tokens[name] = entered.token
        return entered.seat

    def shared(self, *lines, workers=0, **more):
        """A shared network, with these lines by its first person, anna."""
        made = Shared(str(self.log), workers, **more)
        self.addCleanup(made.close)
        anna = self.enter(made, "anna")
        for answer in made.calling.calls((anna, line) for line in lines):
            self.assertEqual((answer.reply, answer.error), (["ok"], ""))
        return made, anna

    def ended(self, shared):
        """Ends it: what replay says of its log."""
        shared.end()
        return replay.verdict(str(self.log), shared.log.size, b"")

    def said(self, shared, seat, line):
        """The reply to one line."""
        return shared.calling.calls([(seat, line)])[0].reply

    def converged(self, shared):
        """Lets the workers deliver until they have nothing to do."""
        for _ in range(1000):
            if shared.deliveries.due(0.0) != 0:
                return
            shared.deliveries.work(0.0)
        self.fail("they never end")
