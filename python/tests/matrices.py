"""Small matrices of gates, in floating point, for the tests alone."""
import cmath
import math

from .gates import Reader


def of_gates(gates, qubits):
    """The matrix of primitive gates as a list of columns; qubit 0 is the first digit of a basis state."""
    size = 1 << qubits
    columns = []
    for start in range(size):
        column = [1.0 if at == start else 0.0 for at in range(size)]
        for gate in gates:
            column = applied(gate, column, qubits)
        columns.append(column)
    return columns


def applied(gate, column, qubits):
    made = list(column)
    if gate[0] == "CX":
        control, target = (1 << (qubits - 1 - q) for q in gate[1:])
        for at in range(len(column)):
            made[at] = column[at ^ target] if at & control else column[at]
        return made
    theta, phi, lam = (units * math.pi / 2**30 for units in gate[1:4])
    bit = 1 << (qubits - 1 - gate[4])
    for at in range(len(column)):
        zero, one = column[at & ~bit], column[at | bit]
        if at & bit:
            made[at] = cmath.exp(1j * phi) * (math.sin(theta / 2) * zero + cmath.exp(1j * lam) * math.cos(theta / 2) * one)
        else:
            made[at] = math.cos(theta / 2) * zero - cmath.exp(1j * lam) * math.sin(theta / 2) * one
    return made


def of_text(text):
    reader = Reader(text.encode())
    return of_gates(reader.gates, reader.qubits)


def phase_between(first, second):
    """The factor by which the second matrix is the first one; None where there is none."""
    pairs = [(a, b) for one, other in zip(first, second) for a, b in zip(one, other)]
    a, b = max(pairs, key=lambda pair: abs(pair[0]))
    if abs(abs(a) - abs(b)) > 1e-9:
        return None
    factor = b / a
    return factor if all(abs(y - factor * x) < 1e-9 for x, y in pairs) else None


def controlled(matrix):
    """The matrix of a gate under one control, which is the first qubit."""
    size = len(matrix)
    plain = [[float(at == start) for at in range(2 * size)] for start in range(size)]
    return plain + [[0.0] * size + column for column in matrix]


def rotation(paulis, theta):
    """exp(-i theta/2 P) of a product P of Paulis."""
    one = {"x": [[0, 1], [1, 0]], "y": [[0, 1j], [-1j, 0]], "z": [[1, 0], [0, -1]]}
    product = [[1]]
    for pauli in paulis:
        product = [
            [a * b for a in column for b in other] for column in product for other in one[pauli]
        ]
    size = len(product)
    cosine, sine = math.cos(theta / 2), -1j * math.sin(theta / 2)
    return [[cosine * (at == start) + sine * product[start][at] for at in range(size)] for start in range(size)]
