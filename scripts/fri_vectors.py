#!/usr/bin/env python3
"""Proofs of FRI over the field of 12289, its extension by a root of X^4 - 11 and SHA-256, by a prover
written apart from the repository's code: vectors for tests of the verifier.

    fri_vectors.py [--false-value] LOG_BLOWUP LOG_FINAL_POLY_LEN QUERIES COMMIT_BITS QUERY_BITS LOG_HEIGHT ROUND ..
    fri_vectors.py
    fri_vectors.py --judge < VECTORS

ROUND is a round's matrices, as 2x1+3x2: one of 2 columns opened at 1 point, one of 3 at 2 points. The
columns and the points follow from the words of the call. It writes a line of JSON: an object of
`parameters` (five numbers), `claims` (for each round its `commitment` and its `matrices`, each with
`log_height` and `points`, each with `point` and `values`), `proof`, as `FriProof` is written, and
`fault`, which is null. The challenger begins with zeros. With --false-value the first claimed value is one
too large, in the transcript too, and `fault` says what a verifier finds. Each proof is verified before it is
written: one of true values has to be accepted, one of a false value refused.
Without words it writes a vector for each line of SAMPLES, behind its words and ` => `. With --judge it
says of each line of JSON the first fault, by the name that the verifier gives it, or `accepted`.
"""
import hashlib
import json
import struct
import sys

PRIME, GENERATOR, ROOT, ADICITY, BYTES = 12289, 11, 1331, 12, 2

# The words that SHA-256 adds in its rounds, and the state that a node of a tree is compressed from.
MASK = 0xFFFFFFFF
CONSTANTS = [
    0x428A2F98, 0x71374491, 0xB5C0FBCF, 0xE9B5DBA5, 0x3956C25B, 0x59F111F1, 0x923F82A4, 0xAB1C5ED5,
    0xD807AA98, 0x12835B01, 0x243185BE, 0x550C7DC3, 0x72BE5D74, 0x80DEB1FE, 0x9BDC06A7, 0xC19BF174,
    0xE49B69C1, 0xEFBE4786, 0x0FC19DC6, 0x240CA1CC, 0x2DE92C6F, 0x4A7484AA, 0x5CB0A9DC, 0x76F988DA,
    0x983E5152, 0xA831C66D, 0xB00327C8, 0xBF597FC7, 0xC6E00BF3, 0xD5A79147, 0x06CA6351, 0x14292967,
    0x27B70A85, 0x2E1B2138, 0x4D2C6DFC, 0x53380D13, 0x650A7354, 0x766A0ABB, 0x81C2C92E, 0x92722C85,
    0xA2BFE8A1, 0xA81A664B, 0xC24B8B70, 0xC76C51A3, 0xD192E819, 0xD6990624, 0xF40E3585, 0x106AA070,
    0x19A4C116, 0x1E376C08, 0x2748774C, 0x34B0BCB5, 0x391C0CB3, 0x4ED8AA4A, 0x5B9CCA4F, 0x682E6FF3,
    0x748F82EE, 0x78A5636F, 0x84C87814, 0x8CC70208, 0x90BEFFFA, 0xA4506CEB, 0xBEF9A3F7, 0xC67178F2,
]
NODE = struct.unpack(">8I", hashlib.sha256(b"Voskligan: a node of a tree").digest())

SAMPLES = """\
1 0 2 0 0 0 1x1
1 0 2 0 0 1 1x1
1 0 3 1 2 2 1x1
1 0 2 0 0 3 2x1+1x2 3x1
2 0 3 2 1 3 1x1 2x2
2 1 2 0 0 1 2x1
1 1 3 1 1 3 2x2 1x1+1x1
2 1 4 2 2 4 3x1 1x2 2x1
1 1 2 0 0 0 1x1 1x1
1 0 2 0 0 2 0x1 1x0 1x1
--false-value 1 0 2 0 0 3 1x1
--false-value 2 1 2 0 0 1 1x1"""


# ---- the field, and its extension as lists of four coordinates, the constant first

def inverse_of(x):
    return pow(x, PRIME - 2, PRIME)


def root_of_order(bits):
    return pow(ROOT, 1 << (ADICITY - bits), PRIME)


def lifted(x):
    return [x % PRIME, 0, 0, 0]


def plus(x, y):
    return [(a + b) % PRIME for a, b in zip(x, y)]


def minus(x, y):
    return [(a - b) % PRIME for a, b in zip(x, y)]


def times(x, y):
    whole = [0] * 7
    for i, a in enumerate(x):
        for j, b in enumerate(y):
            whole[i + j] += a * b
    return [(whole[i] + (GENERATOR * whole[i + 4] if i < 3 else 0)) % PRIME for i in range(4)]


def to_power(x, exponent):
    result = lifted(1)
    while exponent:
        if exponent & 1:
            result = times(result, x)
        x = times(x, x)
        exponent >>= 1
    return result


def reciprocal(x):
    result = to_power(x, PRIME**4 - 2)
    assert times(x, result) == lifted(1)
    return result


def value_at(coefficients, x):
    result = lifted(0)
    for coefficient in reversed(coefficients):
        result = plus(times(result, x), coefficient)
    return result


def base_value_at(coefficients, x):
    result = 0
    for coefficient in reversed(coefficients):
        result = (result * x + coefficient) % PRIME
    return result


# ---- bytes, trees and the challenger

def number(n):
    return n.to_bytes(8, "big")


def row_bytes(rows):
    data = number(len(rows))
    for row in rows:
        data += number(len(row)) + elements(row)
    return data


def elements(xs):
    return b"".join(x.to_bytes(BYTES, "big") for x in xs)


def pair_bytes(x, y):
    return elements(x + y)


def leaf_of(data):
    return hashlib.sha256(b"\0" + data).digest()


def words_of(data):
    return list(struct.unpack(f">{len(data) // 4}I", data))


def rotated(x, *counts):
    mixed = 0
    for count in counts:
        mixed ^= (x >> count) | (x << (32 - count))
    return mixed & MASK


def compress(state, block):
    """SHA-256's compression function, by a window of sixteen words."""
    window, v = words_of(block), list(state)
    for turn in range(64):
        word = window[turn % 16]
        if turn >= 16:
            near, far = window[(turn + 14) % 16], window[(turn + 1) % 16]
            word += rotated(near, 17, 19) ^ (near >> 10)
            word += window[(turn + 9) % 16] + (rotated(far, 7, 18) ^ (far >> 3))
            word = window[turn % 16] = word & MASK
        chosen = v[6] ^ (v[4] & (v[5] ^ v[6]))
        most = (v[0] & v[1]) | (v[2] & (v[0] | v[1]))
        first = v[7] + rotated(v[4], 6, 11, 25) + chosen + CONSTANTS[turn] + word
        v = [(first + rotated(v[0], 2, 13, 22) + most) & MASK, *v[:7]]
        v[4] = (v[4] + first) & MASK
    return struct.pack(">8I", *((x + y) & MASK for x, y in zip(state, v)))


def node_of(left, right):
    return compress(NODE, left + right)


def tree_of(leaves):
    layers = [[leaf_of(leaf) for leaf in leaves]]
    while len(layers[-1]) > 1:
        below = layers[-1]
        layers.append([node_of(below[i], below[i + 1]) for i in range(0, len(below), 2)])
    return layers


def path_in(layers, place):
    path = []
    for layer in layers[:-1]:
        path.append(layer[place ^ 1])
        place //= 2
    return path


def leads_to(root, depth, place, data, path):
    reached = leaf_of(data)
    for beside in path:
        reached = node_of(beside, reached) if place % 2 else node_of(reached, beside)
        place //= 2
    return len(path) == depth and place == 0 and reached == root


class Challenger:
    def __init__(self):
        self.state = bytes(32)

    def absorb(self, tag, data):
        self.state = hashlib.sha256(self.state + bytes([tag]) + data).digest()

    def leading(self):
        return int.from_bytes(self.state[:8], "big")

    def observe_element(self, x):
        self.absorb(0, number(x))

    def observe_number(self, n):
        for byte in number(n):
            self.observe_element(byte)

    def observe_extension(self, x):
        for coordinate in x:
            self.observe_element(coordinate)

    def observe_root(self, root):
        self.absorb(3, root)

    def draw(self):
        drawn = []
        for _ in range(4):
            self.absorb(1, b"")
            drawn.append(self.leading() % PRIME)
        return drawn

    def draw_bits(self, bits):
        self.absorb(2, b"")
        return self.leading() % (1 << bits)

    def check_witness(self, bits, witness):
        if bits == 0:
            return witness == 0
        self.observe_element(witness)
        return self.draw_bits(bits) == 0

    def grind(self, bits):
        for witness in range(PRIME):
            trial = Challenger()
            trial.state = self.state
            if trial.check_witness(bits, witness):
                self.state = trial.state
                return witness
        raise SystemExit(f"no witness of {bits} bits")


def observe_all(challenger, parameters, claims):
    """What is bound before the first challenge: the parameters, and the claims whole."""
    for n in parameters:
        challenger.observe_number(n)
    challenger.observe_number(len(claims))
    for root, matrices in claims:
        challenger.observe_number(len(matrices))
        challenger.observe_root(root)
        for log_height, points in matrices:
            challenger.observe_number(log_height)
            challenger.observe_number(len(points))
            for point, values in points:
                challenger.observe_extension(point)
                challenger.observe_number(len(values))
                for value in values:
                    challenger.observe_extension(value)


# ---- the prover

class Drawer:
    """Elements that follow from a text."""

    def __init__(self, text):
        self.text, self.count = text, 0

    def element(self):
        self.count += 1
        data = hashlib.sha256(f"{self.text} {self.count}".encode()).digest()
        return int.from_bytes(data[:8], "big") % PRIME

    def extension(self):
        return [self.element() for _ in range(4)]


def coset_point(shift, bits, place):
    return shift * pow(root_of_order(bits), place, PRIME) % PRIME


def quotient(coefficients, z):
    """(p - p(z)) / (X - z), by synthetic division."""
    carry, below = lifted(0), []
    for coefficient in reversed(coefficients[1:]):
        carry = plus(coefficient, times(carry, z))
        below.append(carry)
    return below[::-1]


def folded(beta, p):
    return [plus(p[i], times(beta, p[i + 1])) for i in range(0, len(p), 2)]


class Round:
    def __init__(self, drawer, shape, log_height, bits):
        self.matrices, self.points = [], []
        for matrix in shape.split("+"):
            width, count = (int(n) for n in matrix.split("x"))
            size = 1 << log_height
            self.matrices.append([[drawer.element() for _ in range(size)] for _ in range(width)])
            self.points.append([drawer.extension() for _ in range(count)])
        points = [coset_point(GENERATOR, bits, place) for place in range(1 << bits)]
        self.rows = [[[base_value_at(c, x) for c in m] for m in self.matrices] for x in points]
        self.tree = tree_of([row_bytes(rows) for rows in self.rows])
        self.root = self.tree[-1][0]

    def claim(self, log_height):
        matrices = []
        for columns, points in zip(self.matrices, self.points):
            lifts = [[lifted(x) for x in column] for column in columns]
            matrices.append((log_height, [(z, [value_at(c, z) for c in lifts]) for z in points]))
        return (self.root, matrices)


def batched(rounds, alpha, size):
    """The sum of alpha^j (p_j - p_j(z_j)) / (X - z_j), over rounds, matrices, points and columns."""
    p, factor = [lifted(0)] * size, lifted(1)
    for made in rounds:
        for columns, points in zip(made.matrices, made.points):
            for z in points:
                for column in columns:
                    for i, c in enumerate(quotient([lifted(x) for x in column], z)):
                        p[i] = plus(p[i], times(factor, c))
                    factor = times(factor, alpha)
    return p


def fold_all(challenger, parameters, log_height, p):
    """The phases, the layers that they commit to, and the list that is left."""
    log_blowup, log_final_poly_len, _, commit_bits, _ = parameters
    shift, bits, phases, layers = GENERATOR, log_height + log_blowup, [], []
    for _ in range(log_height - min(log_height, log_final_poly_len)):
        points = [lifted(coset_point(shift, bits, place)) for place in range(1 << bits)]
        values = [value_at(p, x) for x in points]
        half = len(values) // 2
        tree = tree_of([pair_bytes(values[i], values[i + half]) for i in range(half)])
        challenger.observe_root(tree[-1][0])
        phases.append((tree[-1][0], challenger.grind(commit_bits)))
        layers.append((values, tree))
        p = folded(challenger.draw(), p)
        shift, bits = shift * shift % PRIME, bits - 1
    return phases, layers, p


def open_query(rounds, layers, place):
    inputs = [(made.rows[place], path_in(made.tree, place)) for made in rounds]
    opened = []
    for values, tree in layers:
        half = len(values) // 2
        other = place + half if place < half else place - half
        place %= half
        opened.append((values[other], path_in(tree, place)))
    return inputs, opened


def prove(parameters, log_height, rounds, claims):
    log_blowup, _, num_queries, _, query_bits = parameters
    challenger = Challenger()
    observe_all(challenger, parameters, claims)
    p = batched(rounds, challenger.draw(), 1 << log_height)
    phases, layers, final = fold_all(challenger, parameters, log_height, p)
    for coefficient in final:
        challenger.observe_extension(coefficient)
    witness = challenger.grind(query_bits)
    bits = log_height + log_blowup
    places = [challenger.draw_bits(bits) for _ in range(num_queries)]
    return phases, final, witness, [open_query(rounds, layers, place) for place in places]


# ---- the verifier

def query_fault(claims, phases, final, alpha, betas, bits, place, query):
    inputs, layers = query
    x, seen = lifted(coset_point(GENERATOR, bits, place)), []
    for number, ((root, matrices), (rows, path)) in enumerate(zip(claims, inputs)):
        if not leads_to(root, bits, place, row_bytes(rows), path):
            return f"Input {{ round: {number} }}"
        for (_, points), row in zip(matrices, rows):
            for z, values in points:
                seen += [(lifted(c), v, z) for c, v in zip(row, values)]
    reached = lifted(0)
    for c, v, z in reversed(seen):
        reached = plus(times(minus(c, v), reciprocal(minus(x, z))), times(alpha, reached))
    shift = GENERATOR
    for layer, ((root, _), beta, (sibling, path)) in enumerate(zip(phases, betas, layers)):
        half = 1 << (bits - 1)
        low, high = (reached, sibling) if place < half else (sibling, reached)
        place, bits = place % half, bits - 1
        if not leads_to(root, bits, place, pair_bytes(low, high), path):
            return f"Layer {{ layer: {layer} }}"
        turned = times(beta, lifted(inverse_of(coset_point(shift, bits + 1, place))))
        total = plus(plus(low, high), times(turned, minus(low, high)))
        reached = times(lifted(inverse_of(2)), total)
        shift = shift * shift % PRIME
    if reached != value_at(final, lifted(coset_point(shift, bits, place))):
        return "Final"
    return None


def fits(claims, query, folds):
    inputs, layers = query
    if len(inputs) != len(claims) or len(layers) != folds:
        return False
    return all(
        len(rows) == len(matrices) and all(
            len(values) == len(row) for (_, points), row in zip(matrices, rows) for _, values in points)
        for (_, matrices), (rows, _) in zip(claims, inputs))


def claims_fault(log_blowup, claims):
    """The first fault of the claims alone."""
    heights = [log_height for _, matrices in claims for log_height, _ in matrices]
    if not heights:
        return "NoClaims"
    for number, (_, matrices) in enumerate(claims):
        if any(log_height != heights[0] for log_height, _ in matrices):
            return f"MixedHeights {{ round: {number} }}"
    bits = heights[0] + log_blowup
    if bits > ADICITY:
        return "TooHigh"
    for number, (_, matrices) in enumerate(claims):
        if any(len(set(len(values) for _, values in points)) > 1 for _, points in matrices):
            return f"Widths {{ round: {number} }}"
    for number, (_, matrices) in enumerate(claims):
        for _, points in matrices:
            for z, _ in points:
                power = times(z, lifted(inverse_of(GENERATOR)))
                for _ in range(bits):
                    power = times(power, power)
                if power == lifted(1):
                    return f"PointOnCoset {{ round: {number} }}"
    return None


def first_fault(parameters, claims, proof):
    log_blowup, log_final_poly_len, num_queries, commit_bits, query_bits = parameters
    phases, final, witness, queries = proof
    fault = claims_fault(log_blowup, claims)
    if fault:
        return fault
    log_height = next(log_height for _, matrices in claims for log_height, _ in matrices)
    if len(phases) != log_height - min(log_height, log_final_poly_len):
        return "CommitPhases"
    if len(final) != 1 << min(log_height, log_final_poly_len):
        return "FinalPolynomial"
    if len(queries) != num_queries:
        return "Queries"
    challenger = Challenger()
    observe_all(challenger, parameters, claims)
    alpha, betas = challenger.draw(), []
    for number, (root, phase_witness) in enumerate(phases):
        challenger.observe_root(root)
        if not challenger.check_witness(commit_bits, phase_witness):
            return f"CommitWork {{ phase: {number} }}"
        betas.append(challenger.draw())
    for coefficient in final:
        challenger.observe_extension(coefficient)
    if not challenger.check_witness(query_bits, witness):
        return "QueryWork"
    bits = log_height + log_blowup
    for index, query in enumerate(queries):
        place = challenger.draw_bits(bits)
        fault = "Shape"
        if fits(claims, query, len(phases)):
            fault = query_fault(claims, phases, final, alpha, betas, bits, place, query)
        if fault:
            return f"Query {{ query: {index}, fault: {fault} }}"
    return None


# ---- JSON

def claims_json(claims):
    return [{"commitment": root.hex(), "matrices": [
        {"log_height": log_height, "points": [{"point": z, "values": values} for z, values in points]}
        for log_height, points in matrices]} for root, matrices in claims]


def path_json(path):
    return [beside.hex() for beside in path]


def proof_json(proof):
    phases, final, witness, queries = proof
    return {
        "phases": [{"commitment": root.hex(), "witness": found} for root, found in phases],
        "final_polynomial": final,
        "query_witness": witness,
        "queries": [{
            "inputs": [{"rows": rows, "path": path_json(path)} for rows, path in inputs],
            "layers": [{"sibling": sibling, "path": path_json(path)} for sibling, path in layers],
        } for inputs, layers in queries],
    }


def with_false_value(claims):
    """The first claimed value, one too large."""
    for _, matrices in claims:
        for _, points in matrices:
            for _, values in points:
                if values:
                    values[0] = plus(values[0], lifted(1))
                    return
    raise SystemExit("no value is claimed")


def vector(words):
    """The line of JSON of a call's words."""
    drawer, is_false = Drawer(" ".join(words)), words[:1] == ["--false-value"]
    words = words[1:] if is_false else words
    parameters, log_height = [int(word) for word in words[:5]], int(words[5])
    bits = log_height + parameters[0]
    rounds = [Round(drawer, shape, log_height, bits) for shape in words[6:]]
    claims = [made.claim(log_height) for made in rounds]
    if is_false:
        with_false_value(claims)
    proof = prove(parameters, log_height, rounds, claims)
    fault = first_fault(parameters, claims, proof)
    if (fault is not None) != is_false:
        raise SystemExit(f"{' '.join(words)}: {fault}")
    vector = {"parameters": parameters, "claims": claims_json(claims), "proof": proof_json(proof)}
    return json.dumps(vector | {"fault": fault}, sort_keys=True, separators=(",", ":"))


# ---- back from JSON

def path_of(digests):
    return [bytes.fromhex(beside) for beside in digests]


def judged(vector):
    """The first fault of a vector that was changed, by the name that the verifier gives it."""
    claims = [(bytes.fromhex(made["commitment"]), [
        (matrix["log_height"], [(p["point"], p["values"]) for p in matrix["points"]])
        for matrix in made["matrices"]]) for made in vector["claims"]]
    proof = vector["proof"]
    phases = [(bytes.fromhex(phase["commitment"]), phase["witness"]) for phase in proof["phases"]]
    queries = [(
        [(opened["rows"], path_of(opened["path"])) for opened in query["inputs"]],
        [(opened["sibling"], path_of(opened["path"])) for opened in query["layers"]],
    ) for query in proof["queries"]]
    parts = phases, proof["final_polynomial"], proof["query_witness"], queries
    return first_fault(vector["parameters"], claims, parts)


def main():
    if sys.argv[1:] == ["--judge"]:
        for line in sys.stdin:
            print(judged(json.loads(line)) or "accepted")
        return
    if len(sys.argv) > 1:
        print(vector(sys.argv[1:]))
        return
    for line in SAMPLES.splitlines():
        print(f"{line} => {vector(line.split())}")


main()
