"""Sessions side by side: what is printed is one history of a plain service, in which each session finds its own commands, in order."""
import random
import unittest

from .service import GATES, Service
from .stand_in import knows
from .test_program import run

KNOWN = knows("run", "0")
NEWER = "the program does not know these words yet"
HEAD = 'OPENQASM 2.0;\ninclude "qelib1.inc";\nqreg q[2];\n'


def block(gates):
    return "".join(gate + "\n" for gate in gates) + ".\n"


def written(session, command):
    """The command as a script has it."""
    word, *rest = command
    if word == "open":
        return f"{session} open {rest[0]}\n{HEAD}{block(rest[1])}"
    if word == "splice":
        *numbers, gates = rest
        return f"{session} splice {' '.join(map(str, numbers))}\n{block(gates)}"
    return f"{session} {word} {' '.join(map(str, rest))}\n"


def drawn(draw, step, length):
    """A command on one of three circuits, about the versions that are likely to be there after so many steps."""
    name = draw.choice("abc")
    version = draw.randint(1, step // 4 + 2)
    gates = [draw.choice(sorted(GATES)) for _ in range(draw.randint(0, 3))]
    kind = draw.randrange(20)
    if kind < 12:
        start = draw.randint(0, 3)
        return ("splice", name, version, start, start + draw.randint(0, 2), gates)
    if kind < 14:
        return ("retire", name, max(1, version - draw.randint(1, 20)))
    if kind < 17:
        return ("ask", name, version, draw.choice("abc"), draw.randint(1, version))
    if kind < 19:
        return ("show", name, version)
    return ("open", name, gates)


class Histories(unittest.TestCase):
    def replay(self, sessions, output):
        """Each line that begins a reply is that of the next command of its session, and is right where it stands."""
        service, places = Service(), {session: 0 for session in sessions}
        lines = output.decode().split("\n")
        self.assertEqual(lines.pop(), "")
        at, replies = 0, 0
        while at < len(lines):
            session, reply = lines[at].split(" ", 1)
            session = int(session)
            command = sessions[session][places[session]]
            self.assertTrue(service.check(command, reply), (session, command, reply))
            places[session] += 1
            replies += 1
            at += 1 + (int(reply.split()[1]) if reply.startswith("shown ") else 0)
        self.assertEqual(places, {session: len(commands) for session, commands in sessions.items()})
        return service, replies

    @unittest.skipUnless(KNOWN, NEWER)
    def test_sixteen_sessions(self):
        """Sixteen sessions with 2,500 commands each, all about the same three circuits."""
        draw = random.Random(16)
        sessions = {session: [drawn(draw, step, 2500) for step in range(2500)] for session in range(16)}
        for session in range(3):
            sessions[session][0] = ("open", "abc"[session], [])
        order = [session for session in sessions for _ in range(2500)]
        draw.shuffle(order)
        steps = {session: iter(commands) for session, commands in sessions.items()}
        script = "".join(written(session, next(steps[session])) for session in order)
        status, output = run(["run", "0"], script.encode())
        self.assertEqual(status, 0)
        service, replies = self.replay(sessions, output)
        self.assertEqual(replies, 40000)
        self.assertGreater(sum(map(len, service.circuits.values())), 50)

    @unittest.skipUnless(KNOWN, NEWER)
    def test_two_splices_on_one_version(self):
        """Whoever comes first, one of them is refused; and each session's own commands stay in their order."""
        sessions = {0: [("open", "a", []), ("splice", "a", 1, 0, 0, ["x q[0];"])], 1: [("splice", "a", 1, 0, 0, ["x q[1];"])] * 200}
        script = written(0, sessions[0][0]) + "".join(written(1, command) for command in sessions[1]) + written(0, sessions[0][1])
        for _ in range(5):
            status, output = run(["run", "0"], script.encode())
            self.assertEqual(status, 0)
            service, _ = self.replay(sessions, output)
            self.assertEqual(len(service.circuits["a"]), 2)
