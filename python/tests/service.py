"""A plain service of lists of gates, by which printed histories are replayed: what each reply says, by command and state.

Circuits have 2 qubits and the gates x and cx alone, so what they do is a table of four outputs. It stands on no code of the
package, and knows nothing of turns, trees or sums.
"""

GATES = {"x q[0];": (0,), "x q[1];": (1,), "cx q[0],q[1];": (0, 1), "cx q[1],q[0];": (1, 0)}


def output(gates, bits):
    """What the gates make of two bits."""
    bits = list(bits)
    for gate in gates:
        *control, target = GATES[gate]
        if all(bits[at] for at in control):
            bits[target] ^= 1
    return tuple(bits)


INPUTS = [(0, 0), (1, 0), (0, 1), (1, 1)]


class Service:
    def __init__(self):
        self.circuits = {}      # name: the list of gates of each version
        self.retired = set()    # (name, version)

    def fault(self, name, version):
        """The reply to a look at a version that can't be looked at."""
        if name not in self.circuits:
            return "no circuit"
        if not 0 < version <= len(self.circuits[name]):
            return f"no version {len(self.circuits[name])}"
        if (name, version) in self.retired:
            return "was retired"
        return None

    def check(self, command, reply):
        """Whether the reply is right here; and does the command."""
        return getattr(self, command[0])(reply, *command[1:])

    def open(self, reply, name, gates):
        if name in self.circuits:
            return reply.startswith("name taken ")
        self.circuits[name] = [list(gates)]
        return reply.startswith("opened 1 missing ")

    def splice(self, reply, name, base, start, end, gates):
        if name not in self.circuits:
            return reply == "no circuit"
        versions = self.circuits[name]
        if base != len(versions):
            return reply == f"stale {len(versions)}"
        latest = versions[-1]
        if start > end or end > len(latest):
            return reply == f"span {len(latest)}"
        if start == end and not gates:
            return reply == "nothing"
        versions.append(latest[:start] + list(gates) + latest[end:])
        return reply.startswith(f"committed {len(versions)} missing ")

    def retire(self, reply, name, version):
        fault = self.fault(name, version)
        if fault == "was retired":
            return reply == "latest" if version == len(self.circuits[name]) else reply.startswith("was retired ")
        if fault:
            return reply == fault
        if version == len(self.circuits[name]):
            return reply == "latest"
        self.retired.add((name, version))
        return reply == "retired"

    def ask(self, reply, *places):
        """A question's reply comes where it is answered, and its versions were pinned before: so they may be retired meanwhile."""
        for name, version in (places[:2], places[2:]):
            fault = self.fault(name, version)
            if fault == "was retired":
                if reply.startswith("was retired "):
                    return True
            elif fault:
                return reply == fault
        if reply.startswith("was retired "):
            return False
        first, second = (self.circuits[name][version - 1] for name, version in (places[:2], places[2:]))
        differs = [bits for bits in INPUTS if output(first, bits) != output(second, bits)]
        if reply == "yes":
            return not differs
        return reply.startswith("no ") and tuple(int(bit) for bit in reply[3:]) in differs

    def show(self, reply, name, version):
        fault = self.fault(name, version)
        if fault == "was retired":
            return reply.startswith("was retired ")
        return reply == fault if fault else reply.startswith(f"shown {len(self.circuits[name][version - 1])}")
