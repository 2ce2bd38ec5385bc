#!/usr/bin/env python3
"""A verifier written from docs/PROTOCOL.md and docs/FORMATS.md, apart from the crates: a check of these pages.

usage: scripts/verify.py STATEMENT PROOF
       scripts/verify.py --key STATEMENT

Takes statements by FRI over any of the three fields and proofs as JSON, and prints `accepted`, or `refused` and the name of the first fault. With
--key it writes the bytes of the statement's key. It tests no limits and reads as Python's `json` does, so it is no program for the texts of
strangers. It shares nothing with `fri_vectors.py`.
"""
import hashlib, json, sys

FIELDS = {"baby_bear": (2013265921, 31, 11, 27, 440564289), "koala_bear": (2130706433, 3, 3, 24, 1791270792), "f12289": (12289, 11, 11, 12, 1331)}
BYTES = {"baby_bear": 4, "koala_bear": 4, "f12289": 2}
NODES = "constant main next preprocessed preprocessed_next public periodic first last transition add sub mul neg".split()
NUMBERS = {"log_blowup": 2, "log_final_poly_len": 0, "num_queries": 120, "commit_proof_of_work_bits": 0, "query_proof_of_work_bits": 16}
SETS = {"default": {}, "fast": {"log_blowup": 1, "num_queries": 85}, "proved_100": {"log_blowup": 1, "num_queries": 220}}


class Refused(Exception):
    pass


def need(holds, name):
    if not holds:
        raise Refused(name)


def num(k):
    return k.to_bytes(8, "big")


def sha(*parts):
    return hashlib.sha256(b"".join(parts)).digest()


def round_constants():
    """Of the cube roots of the first 64 primes the first 32 bits after the point."""
    primes = [k for k in range(2, 312) if all(k % d for d in range(2, k))]
    words = []
    for prime in primes:
        low, high = 0, 2**36
        while high - low > 1:
            middle = (low + high) // 2
            low, high = (middle, high) if middle**3 <= prime << 96 else (low, middle)
        words.append(low % 2**32)
    return words


ROUNDS = round_constants()
NODE = [int.from_bytes(sha(b"Voskligan: a node of a tree")[i : i + 4], "big") for i in range(0, 32, 4)]


def turned(x, k):
    return (x >> k | x << (32 - k)) % 2**32


def compressed(state, block):
    """The function that SHA-256 takes each block in with (FIPS 180-4, 6.2.2)."""
    w = [int.from_bytes(block[i : i + 4], "big") for i in range(0, 64, 4)]
    for t in range(16, 64):
        low = turned(w[t - 15], 7) ^ turned(w[t - 15], 18) ^ w[t - 15] >> 3
        high = turned(w[t - 2], 17) ^ turned(w[t - 2], 19) ^ w[t - 2] >> 10
        w.append((w[t - 16] + low + w[t - 7] + high) % 2**32)
    a, b, c, d, e, f, g, h = state
    for k, word in zip(ROUNDS, w):
        one = h + (turned(e, 6) ^ turned(e, 11) ^ turned(e, 25)) + (e & f ^ ~e & g) + k + word
        two = (turned(a, 2) ^ turned(a, 13) ^ turned(a, 22)) + (a & b ^ a & c ^ b & c)
        a, b, c, d, e, f, g, h = (one + two) % 2**32, a, b, c, (d + one) % 2**32, e, f, g
    return b"".join(((x + y) % 2**32).to_bytes(4, "big") for x, y in zip(state, (a, b, c, d, e, f, g, h)))


def node(left, right):
    return compressed(NODE, left + right)


class Field:
    """The field and its extension, whose elements are lists of four numbers."""

    def __init__(self, name):
        self.p, self.g, self.c, self.adicity, self.r = FIELDS[name]
        self.bytes = BYTES[name]
        self.zero, self.one = [0] * 4, [1, 0, 0, 0]

    def root(self, k):
        return pow(self.r, 2 ** (self.adicity - k), self.p)

    def inv(self, x):
        return pow(x, self.p - 2, self.p)

    def of(self, x):
        return [x % self.p, 0, 0, 0]

    def add(self, x, y):
        return [(a + b) % self.p for a, b in zip(x, y)]

    def sub(self, x, y):
        return [(a - b) % self.p for a, b in zip(x, y)]

    def mul(self, x, y):
        wide = [0] * 7
        for i, a in enumerate(x):
            for j, b in enumerate(y):
                wide[i + j] += a * b
        return [(wide[k] + (self.c * wide[k + 4] if k < 3 else 0)) % self.p for k in range(4)]

    def power(self, x, k):
        result = self.one
        while k:
            if k & 1:
                result = self.mul(result, x)
            x, k = self.mul(x, x), k >> 1
        return result

    def inverse(self, x):
        return self.power(x, self.p**4 - 2)

    def value(self, coefficients, x):
        result = self.zero
        for coefficient in reversed(coefficients):
            result = self.add(self.mul(result, x), coefficient)
        return result


class Challenger:
    def __init__(self, field):
        self.field, self.state = field, bytes(32)

    def absorb(self, tag, data=b""):
        self.state = sha(self.state, bytes([tag]), data)

    def lead(self):
        return int.from_bytes(self.state[:8], "big")

    def element(self, x):
        self.absorb(0, num(x))

    def extension(self, x):
        for coordinate in x:
            self.element(coordinate)

    def bytes(self, data):
        for byte in data:
            self.element(byte)

    def number(self, k):
        self.bytes(num(k))

    def digest(self, root):
        self.absorb(3, root)

    def draw(self):
        drawn = []
        for _ in range(4):
            self.absorb(1)
            drawn.append(self.lead() % self.field.p)
        return drawn

    def below(self, bits):
        self.absorb(2)
        return self.lead() % 2**bits

    def worked(self, bits, witness):
        if bits == 0:
            return witness == 0
        self.element(witness)
        return self.below(bits) == 0


class Statement:
    def __init__(self, value):
        config = value.get("config") or {}
        config = SETS[config] if isinstance(config, str) else config
        self.field_name = config.get("field") or "baby_bear"
        if (config.get("scheme") or "fri") != "fri":
            raise SystemExit("this verifier is for FRI alone")
        self.numbers = {name: config[name] if config.get(name) is not None else number for name, number in NUMBERS.items()}
        self.air, self.public = value["air"], value["public_values"]
        self.alpha_bits, self.ood_bits = value.get("alpha_bits") or 0, value.get("ood_bits") or 0
        self.log_height = value.get("log_height")
        self.preprocessed = self.air.get("preprocessed") or {"width": 0, "rows": []}
        nodes = self.air["nodes"]
        self.reads_next = self.air["width"] > 0 and any(node[0] == "next" for node in nodes)
        self.reads_preprocessed_next = any(node[0] == "preprocessed_next" for node in nodes)
        self.constraints = [(0, c["base"]) if c.get("base") is not None else (1, c["ext"]) for c in self.air["constraints"]]

    def canonical(self):
        air, words = self.air, [list(FIELDS).index(self.field_name), 1, *self.numbers.values(), self.air["width"], self.air["publics"]]
        words.append(len(air["periodic"]))
        for column in air["periodic"]:
            words += [len(column), *column]
        if air.get("preprocessed") is None:
            words.append(0)
        else:
            elements = [x for row in self.preprocessed["rows"] for x in row]
            words += [1, self.preprocessed["width"], len(elements), *elements]
        for name in ("max_constraint_degree", "num_constraints"):
            words += [0] if air.get(name) is None else [1, air[name]]
        words += [len(air["constants"]), *air["constants"], len(air["nodes"])]
        for node in air["nodes"]:
            words += [NODES.index(node[0]), *node[1:]]
        words.append(len(self.constraints))
        for kind, node in self.constraints:
            words += [kind, node]
        words += [len(self.public), *self.public, self.alpha_bits, self.ood_bits]
        words += [] if self.log_height is None else [self.log_height]
        body = b"voskligan statement 3" + b"".join(map(num, words))
        return num(len(body)) + body

    def log_chunks(self):
        degrees = []
        for name, *of in self.air["nodes"]:
            if name in ("add", "sub"):
                degrees.append(max(degrees[of[0]], degrees[of[1]]))
            elif name == "mul":
                degrees.append(degrees[of[0]] + degrees[of[1]])
            elif name == "neg":
                degrees.append(degrees[of[0]])
            else:
                degrees.append(int(name not in ("constant", "public", "transition")))
        d = max([degrees[node] for _, node in self.constraints] + [self.air.get("max_constraint_degree") or 0])
        return (max(d, 2) - 2).bit_length()


def leads(root, depth, place, data, path):
    digest = sha(b"\0", data)
    for beside in path:
        beside = bytes.fromhex(beside)
        digest = node(digest, beside) if place % 2 == 0 else node(beside, digest)
        place //= 2
    return len(path) == depth and place == 0 and digest == root


def element_bytes(field, elements):
    return b"".join(x.to_bytes(field.bytes, "big") for x in elements)


def row_bytes(field, rows):
    return num(len(rows)) + b"".join(num(len(row)) + element_bytes(field, row) for row in rows)


def key_of(field, statement):
    """The logarithm of the height of the preprocessed columns, and the root of the tree over their extended rows."""
    rows, width = statement.preprocessed["rows"], statement.preprocessed["width"]
    k = len(rows).bit_length() - 1
    if len(rows) != 2**k:
        raise SystemExit("bad input")
    b, p, h = k + statement.numbers["log_blowup"], field.p, field.root(k)
    inverse_size = field.inv(len(rows))
    columns = []
    for c in range(width):
        columns.append([sum(row[c] * pow(h, -i * j, p) for j, row in enumerate(rows)) * inverse_size % p for i in range(len(rows))])
    layer = []
    for i in range(2**b):
        x = field.g * pow(field.root(b), i, p) % p
        row = [sum(a * pow(x, j, p) for j, a in enumerate(column)) % p for column in columns]
        layer.append(sha(b"\0", row_bytes(field, [row])))
    while len(layer) > 1:
        layer = [node(layer[i], layer[i + 1]) for i in range(0, len(layer), 2)]
    return k, layer[0]


def key_file(statement):
    """The bytes of the statement's key."""
    begun = b"voskligan key 2" + sha(statement.canonical())
    if not statement.preprocessed["width"]:
        return begun + b"\0"
    k, root = key_of(Field(statement.field_name), statement)
    return begun + b"\1" + num(statement.preprocessed["width"]) + num(k) + root


def check_shape(field, statement, proof, key):
    n, opened, width = proof["degree_bits"], proof["opened_values"], statement.air["width"]
    if statement.log_height is not None:
        need(n >= statement.log_height, "DegreeBitsTooSmall")
        need(n <= statement.log_height, "DegreeBitsTooLarge")
    need(n + statement.numbers["log_blowup"] <= field.adicity, "DegreeBitsTooLarge")
    local, after, preprocessed = opened.get("preprocessed_local"), opened.get("preprocessed_next"), statement.preprocessed["width"]
    if preprocessed == 0:
        need(local is None, "UnexpectedPreprocessedValues")
    else:
        need(local is not None and len(local) == preprocessed, "PreprocessedTraceWidthMismatch")
        if statement.reads_preprocessed_next:
            need(after is not None and len(after) == preprocessed, "PreprocessedTraceWidthMismatch")
        else:
            need(after is None, "UnexpectedPreprocessedNext")
        need(n == key[0], "PreprocessedDegreeMismatch")
    l = statement.log_chunks()
    need(n + l <= field.adicity, "QuotientDomainTooLarge")
    need(proof["commitments"].get("random") is None and opened.get("random") is None, "RandomizationError")
    trace_next = opened.get("trace_next")
    if statement.reads_next:
        need(trace_next is not None and len(trace_next) == width, "TraceNextMismatch")
    else:
        need(trace_next is None, "UnexpectedTraceNext")
    chunks = opened["quotient_chunks"]
    need(len(opened["trace_local"]) == width and len(chunks) == 2**l and all(len(chunk) == 4 for chunk in chunks), "OpenedValuesDimensionMismatch")
    need(statement.alpha_bits > 0 or (proof.get("alpha_pow_witness") or 0) == 0, "NonCanonicalAlphaPowWitness")
    need(statement.ood_bits > 0 or proof["ood_pow_witness"] == 0, "NonCanonicalOodPowWitness")
    return n, l


def seed(statement, n, l):
    def step(place, kind, label, length, size, degree):
        return bytes([place, kind]) + num(len(label)) + label + bytes([length]) + num(size) + num(degree)

    steps = [step(0, 0, b"trace_commitment", 0, 1, 0)]
    if statement.preprocessed["width"]:
        steps.append(step(0, 0, b"preprocessed_commitment", 0, 1, 0))
    steps.append(step(0, 1, b"public_values", 1, len(statement.public), 1))
    if statement.alpha_bits:
        steps.append(step(0, 3, b"alpha_pow", 1, statement.alpha_bits, 1))
    steps += [step(0, 2, b"alpha", 0, 1, 4), step(0, 0, b"quotient_commitment", 0, 1, 0)]
    if statement.ood_bits:
        steps.append(step(0, 3, b"ood_pow", 1, statement.ood_bits, 1))
    steps += [step(0, 2, b"zeta", 0, 1, 4), step(1, 4, b"opening_argument", 2, 0, 0), step(2, 4, b"opening_argument", 2, 0, 0)]
    items = [n, n, statement.air["width"], statement.preprocessed["width"], len(statement.air["periodic"]), 2**l]
    items += [int(statement.reads_next), int(statement.reads_preprocessed_next and statement.preprocessed["width"] > 0)]
    parts = [bytes([1]), num(12), b"p3-uni-stark", num(len(steps)), *steps, num(len(items))]
    return b"".join(parts + [num(8) + num(item) for item in items])


def is_opened(field, numbers, rounds, n, proof, challenger):
    """Whether the claims hold: of each round its root and its matrices, of each matrix its points with their values."""
    b = n + numbers["log_blowup"]
    points = {tuple(point) for _, matrices in rounds for matrix in matrices for point, _ in matrix}
    if any(field.power(field.mul(list(z), field.of(field.inv(field.g))), 2**b) == field.one for z in points):
        return False
    f = min(n, numbers["log_final_poly_len"])
    phases, final, queries = proof["phases"], proof["final_polynomial"], proof["queries"]
    if (len(phases), len(final), len(queries)) != (n - f, 2**f, numbers["num_queries"]):
        return False
    for number in (*numbers.values(), len(rounds)):
        challenger.number(number)
    for root, matrices in rounds:
        challenger.number(len(matrices))
        challenger.digest(root)
        for matrix in matrices:
            challenger.number(n)
            challenger.number(len(matrix))
            for point, values in matrix:
                challenger.extension(point)
                challenger.number(len(values))
                for value in values:
                    challenger.extension(value)
    batching, betas = challenger.draw(), []
    for phase in phases:
        challenger.digest(bytes.fromhex(phase["commitment"]))
        if not challenger.worked(numbers["commit_proof_of_work_bits"], phase["witness"]):
            return False
        betas.append(challenger.draw())
    for coefficient in final:
        challenger.extension(coefficient)
    if not challenger.worked(numbers["query_proof_of_work_bits"], proof["query_witness"]):
        return False
    places = [challenger.below(b) for _ in queries]
    return all(query_holds(field, rounds, b, batching, betas, phases, final, place, query) for place, query in zip(places, queries))


def query_holds(field, rounds, b, batching, betas, phases, final, i, query):
    p, value, weight = field.p, field.zero, field.one
    x = field.of(field.g * pow(field.root(b), i, p))
    if len(query["inputs"]) != len(rounds) or len(query["layers"]) != len(phases):
        return False
    for (root, matrices), opened in zip(rounds, query["inputs"]):
        if len(opened["rows"]) != len(matrices) or not leads(root, b, i, row_bytes(field, opened["rows"]), opened["path"]):
            return False
        for matrix, row in zip(matrices, opened["rows"]):
            for point, values in matrix:
                if len(values) != len(row):
                    return False
                apart = field.inverse(field.sub(x, point))
                for element, claimed in zip(row, values):
                    quotient = field.mul(field.sub(field.of(element), claimed), apart)
                    value, weight = field.add(value, field.mul(weight, quotient)), field.mul(weight, batching)
    shift = field.g
    for t, (phase, beta, layer) in enumerate(zip(phases, betas, query["layers"])):
        half = 2 ** (b - t - 1)
        low, high = (value, layer["sibling"]) if i < half else (layer["sibling"], value)
        i %= half
        if not leads(bytes.fromhex(phase["commitment"]), b - t - 1, i, element_bytes(field, low + high), layer["path"]):
            return False
        y = shift * pow(field.root(b - t), i, p) % p
        turned = field.mul(field.mul(beta, field.of(field.inv(y))), field.sub(low, high))
        value = field.mul(field.add(field.add(low, high), turned), field.of(field.inv(2)))
        shift = shift * shift % p
    last = field.of(shift * pow(field.root(b - len(phases)), i, p))
    return value == field.value(final, last)


def folded(field, statement, proof, n, alpha, zeta):
    """The constraints' values at zeta, folded by alpha."""
    opened, N, h = proof["opened_values"], 2**n, field.root(n)
    vanishing, last = field.sub(field.power(zeta, N), field.one), field.of(field.inv(h))
    selectors = {
        "first": field.mul(vanishing, field.inverse(field.sub(zeta, field.one))),
        "last": field.mul(vanishing, field.inverse(field.sub(zeta, last))),
        "transition": field.sub(zeta, last),
    }
    rows = {"main": opened["trace_local"], "next": opened.get("trace_next"), "preprocessed": opened.get("preprocessed_local")}
    rows["preprocessed_next"] = opened.get("preprocessed_next")
    rows["constant"] = [field.of(x) for x in statement.air["constants"]]
    rows["public"] = [field.of(x) for x in statement.public]
    rows["periodic"] = [periodic_value(field, column, N, h, zeta) for column in statement.air["periodic"]]
    values = []
    for name, *of in statement.air["nodes"]:
        if name in ("add", "sub", "mul"):
            values.append(getattr(field, name)(values[of[0]], values[of[1]]))
        elif name == "neg":
            values.append(field.sub(field.zero, values[of[0]]))
        else:
            values.append(selectors[name] if name in selectors else rows[name][of[0]])
    total = field.zero
    for _, node in statement.constraints:
        total = field.add(field.mul(total, alpha), values[node])
    return total, vanishing


def periodic_value(field, column, N, h, zeta):
    size = len(column)
    w, x, inverse_size = pow(h, N // size, field.p), field.power(zeta, N // size), field.inv(size)
    coefficients = [sum(v * pow(w, -i * j, field.p) for j, v in enumerate(column)) * inverse_size for i in range(size)]
    return field.value([field.of(a) for a in coefficients], x)


def quotient(field, chunks, n, l, zeta):
    shifts = [field.g * pow(field.root(n + l), i, field.p) % field.p for i in range(2**l)]

    def vanishing(j, x):
        return field.sub(field.power(field.mul(x, field.of(field.inv(shifts[j]))), 2**n), field.one)

    total = field.zero
    for i, chunk in enumerate(chunks):
        value = field.zero
        for j, coordinate in enumerate(chunk):
            value = field.add(value, field.mul([int(k == j) for k in range(4)], coordinate))
        for j in range(len(chunks)):
            if j != i:
                value = field.mul(value, field.mul(vanishing(j, zeta), field.inverse(vanishing(j, field.of(shifts[i])))))
        total = field.add(total, value)
    return total


def verify(statement, proof):
    field = Field(statement.field_name)
    challenger = Challenger(field)
    challenger.bytes(sha(statement.canonical()))
    key = key_of(field, statement) if statement.preprocessed["width"] else None
    n, l = check_shape(field, statement, proof, key)
    commitments, opened = proof["commitments"], proof["opened_values"]
    trace, chunks = bytes.fromhex(commitments["trace"]), bytes.fromhex(commitments["quotient_chunks"])
    challenger.bytes(seed(statement, n, l))
    challenger.digest(trace)
    if key:
        challenger.digest(key[1])
    for x in statement.public:
        challenger.element(x)
    if statement.alpha_bits:
        need(challenger.worked(statement.alpha_bits, proof.get("alpha_pow_witness") or 0), "InvalidAlphaPowWitness")
    alpha = challenger.draw()
    challenger.digest(chunks)
    if statement.ood_bits:
        need(challenger.worked(statement.ood_bits, proof["ood_pow_witness"]), "InvalidOodPowWitness")
    zeta = challenger.draw()
    need(field.power(zeta, 2**n) != field.one, "OodPointInDomain")
    for column in statement.air["periodic"]:
        need(1 <= len(column) <= 2**n and len(column) & (len(column) - 1) == 0, "PeriodicColumn")

    def matrix(local, after):
        points = [(zeta, local)]
        return points if after is None else [*points, (field.mul(zeta, field.of(field.root(n))), after)]

    rounds = [(trace, [matrix(opened["trace_local"], opened.get("trace_next"))]), (chunks, [matrix(chunk, None) for chunk in opened["quotient_chunks"]])]
    if key:
        rounds.append((key[1], [matrix(opened["preprocessed_local"], opened.get("preprocessed_next"))]))
    need(is_opened(field, statement.numbers, rounds, n, proof["opening_proof"], challenger), "InvalidOpeningArgument")
    left, vanishing = folded(field, statement, proof, n, alpha, zeta)
    need(left == field.mul(vanishing, quotient(field, opened["quotient_chunks"], n, l, zeta)), "OodEvaluationMismatch")


def main(words):
    if len(words) != 2:
        print("usage: scripts/verify.py STATEMENT PROOF | scripts/verify.py --key STATEMENT", file=sys.stderr)
        return 2
    if words[0] == "--key":
        with open(words[1], encoding="utf-8") as text:
            sys.stdout.buffer.write(key_file(Statement(json.load(text))))
        return 0
    with open(words[0], encoding="utf-8") as first, open(words[1], encoding="utf-8") as second:
        statement, proof = Statement(json.load(first)), json.load(second)
    try:
        verify(statement, proof)
    except Refused as fault:
        print(f"refused {fault}")
        return 1
    print("accepted")
    return 0


if __name__ == "__main__":
    sys.exit(main(sys.argv[1:]))
