#!/usr/bin/env python3
"""Forged proofs over FRI of tables that are far from polynomials, and how often they are accepted: a check of the counts in docs/FRI.md.

usage: scripts/far_words.py [--tries N] [--program VOSKLIGAN]

Two kinds of tables. `random`: every row is drawn at random, the claims are made to fit the AIR at zeta, and the final polynomial goes through
as many values of the last fold as it can: one part in 2^log_blowup of the places passes. `spoiled`: an honest proof whose trace has other
rows at e + 1 places, e being the greatest radius; all others pass, which is as many as the bound allows. A list of q places is accepted where
all of them pass. Each proof is judged by `scripts/verify.py` and, where a program is named, by `voskligan verify`, and both have to agree. The
status is 1 where a share is four standard deviations from what is expected, or above the bound by as much.
"""
import argparse, json, math, os, random, subprocess, sys, tempfile
import verify as protocol

HEIGHT, FIELD = 3, "f12289"
# Numbers that count up by one: the first is the public value.
AIR = {
    "width": 1, "publics": 1, "periodic": [], "preprocessed": None, "max_constraint_degree": None, "num_constraints": None, "constants": [1],
    "nodes": [["main", 0], ["next", 0], ["public", 0], ["constant", 0], ["first"], ["transition"], ["sub", 0, 2], ["mul", 4, 6], ["add", 0, 3],
              ["sub", 1, 8], ["mul", 5, 9]],
    "constraints": [{"base": 7}, {"base": 10}],
}


class Tree:
    """A tree of SHA-256 over leaves, as docs/PROTOCOL.md has it."""

    def __init__(self, leaves):
        self.layers = [[protocol.sha(b"\0", leaf) for leaf in leaves]]
        while len(self.layers[-1]) > 1:
            below = self.layers[-1]
            self.layers.append([protocol.sha(b"\1", below[i], below[i + 1]) for i in range(0, len(below), 2)])
        self.root = self.layers[-1][0]

    def path(self, place):
        return [layer[place >> k ^ 1].hex() for k, layer in enumerate(self.layers[:-1])]


class Forger:
    def __init__(self, statement, chance, kind):
        self.statement, self.chance, self.field = statement, chance, protocol.Field(FIELD)
        self.kind, self.bits = kind, HEIGHT + statement.numbers["log_blowup"]
        self.points = self.coset(self.field.g, self.bits)
        self.challenger = protocol.Challenger(self.field)

    def coset(self, shift, bits):
        return [shift * pow(self.field.root(bits), i, self.field.p) % self.field.p for i in range(2**bits)]

    def element(self):
        return self.chance.randrange(self.field.p)

    def extension(self):
        return [self.element() for _ in range(4)]

    def value_at(self, shift, values, x):
        """The value at x of the polynomial over the extension that has these values on a coset as large as there are values."""
        field, points = self.field, self.coset(shift, len(values).bit_length() - 1)
        if x in [field.of(point) for point in points]:
            return values[[field.of(point) for point in points].index(x)]
        k, total = len(values), field.zero
        for point, value in zip(points, values):
            weight = field.mul(field.of(point), field.inverse(field.sub(x, field.of(point))))
            total = field.add(total, field.mul(weight, value))
        scale = field.inv(k * pow(shift, k, field.p) % field.p)
        return field.mul(total, field.mul(field.of(scale), field.sub(field.power(x, k), field.of(pow(shift, k, field.p)))))

    def greatest_radius(self):
        return (2**self.bits - 2**HEIGHT - 1) // 2

    def trace_tables(self):
        """The honest rows, of numbers that count up, and those that are committed to."""
        if self.kind == "random":
            rows = [[self.element()] for _ in self.points]
            return rows, rows
        numbers = [self.field.of(self.statement.public[0] + i) for i in range(2**HEIGHT)]
        honest = [[self.value_at(1, numbers, self.field.of(x))[0]] for x in self.points]
        spoiled = self.chance.sample(range(len(self.points)), self.greatest_radius() + 1)
        return honest, [[(row[0] + self.chance.randrange(1, self.field.p)) % self.field.p] if i in spoiled else row for i, row in enumerate(honest)]

    def chunk_table(self, trace, alpha):
        if self.kind == "random":
            return [self.extension() for _ in self.points]
        after, table = 2 ** self.statement.numbers["log_blowup"], []
        for i, x in enumerate(self.points):
            rows = {"trace_local": [self.field.of(trace[i][0])], "trace_next": [self.field.of(trace[(i + after) % len(trace)][0])]}
            total, vanishing = protocol.folded(self.field, self.statement, {"opened_values": rows}, HEIGHT, alpha, self.field.of(x))
            table.append(self.field.mul(total, self.field.inverse(vanishing)))
        return table

    def opened_at(self, table, column, x):
        """The value at x of the polynomial that a column of a table is, by as many of its values as it has coefficients."""
        step = 2 ** self.statement.numbers["log_blowup"]
        return self.value_at(self.field.g, [self.field.of(row[column]) for row in table[::step]], x)

    def opened_values(self, trace, chunk, alpha, zeta):
        if self.kind == "random":
            opened = {"trace_local": [self.extension()], "trace_next": [self.extension()]}
            total, vanishing = protocol.folded(self.field, self.statement, {"opened_values": opened}, HEIGHT, alpha, zeta)
            quotient = self.field.mul(total, self.field.inverse(vanishing))
            return {**opened, "quotient_chunks": [[quotient, self.field.zero, self.field.zero, self.field.zero]]}
        after = self.field.mul(zeta, self.field.of(self.field.root(HEIGHT)))
        opened = {"trace_local": [self.opened_at(trace, 0, zeta)], "trace_next": [self.opened_at(trace, 0, after)]}
        return {**opened, "quotient_chunks": [[self.opened_at(chunk, c, zeta) for c in range(4)]]}

    def batched(self, tables, matrices, batching):
        field, word = self.field, []
        for i, x in enumerate(self.points):
            value, weight = field.zero, field.one
            for table, matrix in zip(tables, matrices):
                for point, values in matrix:
                    apart = field.inverse(field.sub(field.of(x), point))
                    for element, claimed in zip(table[i], values):
                        quotient = field.mul(field.sub(field.of(element), claimed), apart)
                        value, weight = field.add(value, field.mul(weight, quotient)), field.mul(weight, batching)
            word.append(value)
        return word

    def folded_word(self, word, shift, beta):
        field, half, result = self.field, len(word) // 2, []
        for i, x in enumerate(self.coset(shift, len(word).bit_length() - 1)[:half]):
            turned = field.mul(field.mul(beta, field.of(field.inv(x))), field.sub(word[i], word[i + half]))
            result.append(field.mul(field.add(field.add(word[i], word[i + half]), turned), field.of(field.inv(2))))
        return result

    def observe_claims(self, rounds):
        challenger = self.challenger
        for number in (*self.statement.numbers.values(), len(rounds)):
            challenger.number(number)
        for root, matrix in rounds:
            challenger.number(1)
            challenger.digest(root)
            challenger.number(HEIGHT)
            challenger.number(len(matrix))
            for point, values in matrix:
                challenger.extension(point)
                challenger.number(len(values))
                for value in values:
                    challenger.extension(value)

    def opening_proof(self, committed, tables, matrices):
        challenger, numbers = self.challenger, self.statement.numbers
        trees = [Tree([protocol.row_bytes([row]) for row in table]) for table in committed]
        self.observe_claims([(tree.root, matrix) for tree, matrix in zip(trees, matrices)])
        word, shift, phases, layers = self.batched(tables, matrices, challenger.draw()), self.field.g, [], []
        while len(word) > 2 ** numbers["log_blowup"]:
            half = len(word) // 2
            tree = Tree([b"".join(map(protocol.num, word[i] + word[i + half])) for i in range(half)])
            challenger.digest(tree.root)
            phases.append({"commitment": tree.root.hex(), "witness": 0})
            layers.append((word, tree))
            word, shift = self.folded_word(word, shift, challenger.draw()), shift * shift % self.field.p
        # One coefficient: the final polynomial is the value of the first place, which all have where the tables are polynomials.
        final = word[:1]
        challenger.extension(final[0])
        queries = [self.query(challenger.below(self.bits), committed, trees, layers) for _ in range(numbers["num_queries"])]
        return {"phases": phases, "final_polynomial": final, "query_witness": 0, "queries": queries}

    def query(self, place, committed, trees, layers):
        inputs = [{"rows": [table[place]], "path": tree.path(place)} for table, tree in zip(committed, trees)]
        beside = []
        for word, tree in layers:
            half = len(word) // 2
            beside.append({"sibling": word[(place + half) % len(word)], "path": tree.path(place % half)})
            place %= half
        return {"inputs": inputs, "layers": beside}

    def proof(self):
        statement, field, challenger = self.statement, self.field, self.challenger
        challenger.bytes(protocol.sha(statement.canonical()))
        challenger.bytes(protocol.seed(statement, HEIGHT, 0))
        trace, spoiled = self.trace_tables()
        trace_root = Tree([protocol.row_bytes([row]) for row in spoiled]).root
        challenger.digest(trace_root)
        for x in statement.public:
            challenger.element(x)
        alpha = challenger.draw()
        chunk = self.chunk_table(trace, alpha)
        chunk_root = Tree([protocol.row_bytes([row]) for row in chunk]).root
        challenger.digest(chunk_root)
        zeta = challenger.draw()
        opened = self.opened_values(trace, chunk, alpha, zeta)
        after = field.mul(zeta, field.of(field.root(HEIGHT)))
        matrices = [[(zeta, opened["trace_local"]), (after, opened["trace_next"])], [(zeta, opened["quotient_chunks"][0])]]
        return {
            "commitments": {"trace": trace_root.hex(), "quotient_chunks": chunk_root.hex()},
            "opened_values": opened,
            "opening_proof": self.opening_proof([spoiled, chunk], [trace, chunk], matrices),
            "degree_bits": HEIGHT,
            "ood_pow_witness": 0,
        }


def is_accepted(statement, proof):
    try:
        protocol.verify(statement, proof)
    except protocol.Refused as fault:
        if str(fault) != "InvalidOpeningArgument":
            raise SystemExit(f"a forged proof is refused for another fault: {fault}")
        return False
    return True


def said_by(program, document, proof):
    with tempfile.TemporaryDirectory() as folder:
        names = [os.path.join(folder, name) for name in ("statement.json", "proof.json")]
        for name, value in zip(names, (document, proof)):
            with open(name, "w", encoding="utf-8") as file:
                json.dump(value, file)
        said = subprocess.run([program, "verify", *names], capture_output=True, text=True, check=False)
    return said.stdout.startswith("accepted")


def measured(kind, log_blowup, queries, options):
    """Prints a line, and answers whether the share of accepted proofs is as expected and within the bound."""
    config = {"field": FIELD, "scheme": "fri", "log_blowup": log_blowup, "log_final_poly_len": 0, "num_queries": queries}
    config.update(commit_proof_of_work_bits=0, query_proof_of_work_bits=0)
    document, accepted = {"config": config, "air": AIR, "public_values": [5]}, 0
    statement = protocol.Statement(document)
    for number in range(options.tries):
        forger = Forger(statement, random.Random(f"{kind} {log_blowup} {queries} {number}"), kind)
        proof = forger.proof()
        verdict = is_accepted(statement, proof)
        if options.program and said_by(options.program, document, proof) != verdict:
            raise SystemExit(f"the program says otherwise than scripts/verify.py: {kind}, {log_blowup}, {queries}, {number}")
        accepted += verdict
    places = 2 ** (HEIGHT + log_blowup)
    bound = ((places - forger.greatest_radius() - 1) / places) ** queries
    expected = bound if kind == "spoiled" else 2 ** (-log_blowup * queries)
    share, apart = accepted / options.tries, 4 * math.sqrt(expected * (1 - expected) / options.tries)
    print(f"{kind:8} {2**log_blowup:7} {queries:7} {options.tries:6} {share:9.3f} {expected:9.3f} {bound:7.3f}", flush=True)
    return abs(share - expected) <= apart and share <= bound + apart


def main():
    parser = argparse.ArgumentParser(description="Forged proofs over FRI, and how often they are accepted.")
    parser.add_argument("--tries", type=int, default=200, help="proofs a line")
    parser.add_argument("--program", help="a program to judge each proof too")
    options = parser.parse_args()
    print("tables   blow-up queries  tries  accepted  expected   bound")
    good = [measured(kind, log_blowup, queries, options) for kind in ("random", "spoiled") for log_blowup in (1, 2) for queries in (1, 2, 4)]
    return 0 if all(good) else 1


if __name__ == "__main__":
    sys.exit(main())
