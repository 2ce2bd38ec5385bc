"""The part of `hostile-sweep` that runs a built `voskligan`: statements, proofs and traces that a stranger spoiled or blew up.

Each run has 256 MB of memory and a second of the processor, and has to end with status 0, 1 or 2 and the line that goes with it. What is
accepted has to be what the honest files say. All is done over each field and with each scheme that a statement can name. Behind them stand
AIRs at the limits of `AirLimits::default` and two long honest ones, which are proved and verified in a gigabyte, with the time that each takes.
"""
import json
import os
import subprocess
import tempfile
import time
from concurrent.futures import ThreadPoolExecutor

from run_texts import named_texts

BYTES = b'"09-]} '
# What a proof as bytes begins with.
BINARY = b"voskligan proof 2"
SECOND, GIGABYTE = (256, 1), (1024, 60)
COLUMNS, CELLS, NODES, CONSTRAINTS = 65_536, 1_048_576, 131_072, 32_768
# The fields, with the logarithm of the greatest group of a power of two.
ADICITY = {"f12289": 12, "baby_bear": 27, "koala_bear": 24}
CLEAR = {"field": "f12289", "scheme": "clear"}


def configurations():
    """Every field with every scheme; by FRI with two queries, so that a proof is short, and no work, so that no other witness passes."""
    for field in ADICITY:
        yield {"field": field, "scheme": "clear"}
        yield {"field": field, "num_queries": 2, "query_proof_of_work_bits": 0}


def greatest_height(config):
    """The logarithm of the most rows that a trace may have: by FRI the columns are extended to twice as many."""
    return ADICITY[config["field"]] - (0 if "scheme" in config else 1)


def name_of(config):
    return f"{config['field']} {config.get('scheme', 'fri')}"


class Runner:
    """Runs the program on files of a folder of its own, and notes what it does."""

    def __init__(self, program):
        self.program, self.faults, self.runs = program, [], 0
        self.slowest, self.largest = (0, ""), (0, "")

    def run(self, verb, statement, second=None, limits=SECOND, options=()):
        """The first line on standard output, the status, the seconds and the kilobytes of a run, and all that it wrote."""
        with tempfile.TemporaryDirectory() as folder:
            paths = []
            for name, text in (("statement", statement), ("second", second)):
                if text is not None:
                    paths.append(os.path.join(folder, name))
                    with open(paths[-1], "wb") as file:
                        file.write(text)
            with open(os.path.join(folder, "out"), "w+b") as out, open(os.path.join(folder, "told"), "w+b") as told:
                limit = f'ulimit -c 0; ulimit -v {limits[0] * 1024}; ulimit -t {limits[1]}; exec "$0" "$@"'
                start = time.monotonic()
                done = subprocess.Popen(["sh", "-c", limit, self.program, verb, *options, *paths], stdout=out, stderr=told)
                _, status, used = os.wait4(done.pid, 0)
                done.returncode = os.waitstatus_to_exitcode(status)
                seconds = time.monotonic() - start
                out.seek(0)
                written = out.read()
        return written.split(b"\n", 1)[0], done.returncode, seconds, used.ru_maxrss, written

    def tell(self, name, verb, done, wanted):
        """Notes a run that did otherwise than it had to."""
        line, status, seconds, kilobytes, _ = done
        self.runs += 1
        self.slowest = max(self.slowest, (seconds, f"{verb} {name}"))
        self.largest = max(self.largest, (kilobytes, f"{verb} {name}"))
        if status != status_of(line) or (wanted is not None and not line.startswith(wanted)):
            self.faults.append(f"{verb} {name}: {line[:80]!r}, status {status}")


def status_of(line):
    """The status that goes with a first line; None where no run writes it."""
    if line in (b"accepted", b"satisfied") or line.startswith((b'{"', b"columns: ")):
        return 0
    if line.startswith((b"refused ", b"row ")):
        return 1
    return 2 if line in (b"bad input", b"out of memory") else None


def air(**fields):
    """An AIR of one column that asserts nothing, with some of its fields written anew."""
    return {"width": 1, "publics": 0, "periodic": [], "constants": [], "nodes": [], "constraints": [], **fields}


def statement(config, **fields):
    """The text of such an AIR's statement."""
    return json.dumps({"config": config, "air": air(**fields), "public_values": []}, separators=(",", ":")).encode()


def with_config(text, config):
    """A statement's text with another configuration, or its numbers anew."""
    given = json.loads(text)
    given["config"] = {**given["config"], **config}
    return json.dumps(given, separators=(",", ":")).encode()


def chain(count, node):
    """The nodes of a column and `count` more, each made from the place of the one before, of which the last is the one constraint."""
    nodes = [["main", 0]] + [node(place) for place in range(count)]
    return {"nodes": nodes, "constraints": [{"base": count}]}


def doublings(count):
    """Sums of a node and itself, over and over."""
    return chain(count, lambda place: ["add", place, place])


def large_airs(config):
    """Names of AIRs that are small to write and large to handle, their fields, and what `show`, `verify` and `prove` say first; `check`
    says the same as `prove` of what isn't read or is too large, and else that the trace satisfies the AIR."""
    trillion, most = 10**12, 2**64 - 1
    large, shape, size = b"refused AirTooLarge", b"refused UnexpectedTraceNext", b"refused QuotientDomainTooLarge"
    shown, proof, bad = b"columns: ", b'{"', b"bad input"
    keyless = b"refused PreprocessedTraceWidthMismatch" if greatest_height(config) >= 12 else bad
    fixed = lambda columns: {"preprocessed": {"width": columns, "rows": [[1] * columns] * 4096}}
    half, past = doublings(20), 2 ** ADICITY[config["field"]] + 2
    return [
        ("2^64 - 1 public values", {"publics": most}, bad, bad, bad),
        ("10^12 columns", {"width": trillion, **chain(0, None)}, large, large, large),
        ("10^12 columns that nothing reads", {"width": trillion}, large, large, large),
        ("2^64 - 1 preprocessed columns", {"preprocessed": {"width": most, "rows": []}}, large, large, large),
        ("2^64 columns", {"width": most, "preprocessed": {"width": 1, "rows": []}}, large, large, large),
        *((f"{k} doublings", doublings(k), shown, shape, proof) for k in (20, 24, 27, 64, 1000)),
        ("64 squarings", chain(64, lambda place: ["mul", place, place]), shown, size, size),
        *((f"a chain of {n}", chain(n, lambda place: ["neg", place]), shown, shape, proof) for n in (10_000, 30_000)),
        ("16000 nodes over 20 doublings", {**half, "nodes": half["nodes"] + [["add", 20, 20]] * 16_000}, shown, shape, proof),
        *((f"{n} preprocessed columns of 4096", fixed(n), shown, keyless, bad) for n in (1, 32, 64, 128)),
        ("257 preprocessed columns of 4096", fixed(257), large, large, large),
        ("64 periodic columns of 4096", {"periodic": [[1] * 4096] * 64}, shown, shape, b"refused PeriodicColumn"),
        (f"a degree of {past}", {"max_constraint_degree": past}, shown, size, size),
        ("a degree of 2^64 - 1", {"max_constraint_degree": most}, shown, size, size),
        ("one node past the limit", {"nodes": [["first"]] * (NODES + 1)}, large, large, large),
        ("one constraint past the limit", {"nodes": [["first"]], "constraints": [{"base": 0}] * (CONSTRAINTS + 1)}, large, large, large),
    ]


def run_large(runner, config, proof):
    """The runs of those AIRs: shown, with a proof for another one, and with a trace of two rows of zeros, which satisfies each it fits."""
    zeros = b"[[0],[0]]"
    for name, fields, shown, verified, proved in large_airs(config):
        text = statement(config, **fields)
        checked = proved if proved in (b"bad input", b"refused AirTooLarge") else b"satisfied"
        runs = (("show", None, shown), ("verify", proof, verified), ("check", zeros, checked), ("prove", zeros, proved))
        for verb, second, wanted in runs:
            runner.tell(f"{name_of(config)}, {name}", verb, runner.run(verb, text, second), wanted)


def run_high(runner, config, honest, proof):
    """A proof that claims the greatest height, for an AIR with long periodic columns, which fit a height of as many rows; and over 12289 as many
    chunks as the field has, at one row."""
    given = json.loads(honest)
    given["air"]["periodic"] = [[1] * 4096] * 64
    greatest = greatest_height(config)
    high = proof.replace(b'"degree_bits":1', b'"degree_bits":%d' % greatest)
    text = json.dumps(given).encode()
    name = f"{name_of(config)}, 64 periodic columns at 2^{greatest} rows"
    wanted = b"refused InvalidOpeningArgument" if greatest >= 12 else b"refused PeriodicColumn"
    runner.tell(name, "verify", runner.run("verify", text, high), wanted)
    if config == CLEAR:
        text = statement(config, max_constraint_degree=4097)
        made = runner.run("prove", text, b"[[0]]")
        runner.tell("4096 chunks", "prove", made, b'{"')
        runner.tell("4096 chunks", "verify", runner.run("verify", text, made[4]), b"accepted")


def run_numbers(runner, honest, proof, trace):
    """Numbers of FRI that are as large as they can be: nothing is as long as they say where a proof is read; and a blow-up that no fixed
    column is extended by. A prover that is asked for as many queries, or as much work, does as it is told."""
    opening, large = b"refused InvalidOpeningArgument", b"refused AirTooLarge"
    field = json.loads(honest)["config"]["field"]
    for numbers in ({"num_queries": 2**64 - 1}, {"log_final_poly_len": 63}, {"commit_proof_of_work_bits": 63}, {"query_proof_of_work_bits": 63}):
        runner.tell(f"{field}, {numbers}", "verify", runner.run("verify", with_config(honest, numbers), proof), opening)
    text = with_config(honest, {"log_final_poly_len": 63})
    made = runner.run("prove", text, trace)
    runner.tell(f"{field}, no folds", "prove", made, b'{"')
    runner.tell(f"{field}, no folds", "verify", runner.run("verify", text, made[4]), b"accepted")
    fixed = {"width": 1, "rows": [[1]] * 4}
    text = statement({"field": field, "log_blowup": ADICITY[field]}, preprocessed=fixed)
    wanted = large if ADICITY[field] > 22 else b"bad input"
    runner.tell(f"{field}, the greatest blow-up", "verify", runner.run("verify", text, proof), wanted)


def long_texts(config, honest, proof, trace):
    """Names of texts that are long or odd, the verb, both texts, and what is said. A witness of more bits than there are is searched for among
    all elements of the field, which takes minutes but over 12289."""
    digits, deep, bad = b"7" * 10_000_000, b"[" * 100_000 + b"]" * 100_000, b"bad input"
    named = lambda text: b'{"' + b"a" * 10_000_000 + b'":0,' + text[1:]
    more = lambda text: honest.replace(b'"air":{', b'"air":{' + text)
    return [
        ("the greatest alpha_bits", "prove", honest[:-1] + b',"alpha_bits":18446744073709551615}', trace, bad),
        ("10 MB of digits", "show", digits, None, bad),
        ("10 MB of digits", "verify", honest, digits, bad),
        ("10 MB of digits", "prove", honest, digits, bad),
        ("a name of 10 MB", "verify", honest, named(proof), b"accepted"),
        ("a name of 10 MB", "show", named(honest), None, bad),
        ("an AIR with a name of 10 MB", "show", more(b'"' + b"a" * 10_000_000 + b'":0,'), None, b"columns: "),
        ("an AIR nested 100,000 deep", "show", more(b'"deep":' + deep + b","), None, bad),
        ("100,000 brackets", "prove", honest, deep, bad),
        ("a trace of a million rows", "prove", honest, b"[" + b"[5]," * 1_000_000 + b"[5]]", bad),
        ("a row of a million", "prove", honest, b"[[" + b"5," * 1_000_000 + b"5]]", bad),
        ("the greatest degree_bits", "verify", honest, proof.replace(b'_bits":1', b'_bits":18446744073709551615'), b"refused DegreeBitsTooLarge"),
        ("the greatest ood_bits", "verify", honest[:-1] + b',"ood_bits":18446744073709551615}', proof, bad),
        ("ood_bits of a day", "verify", honest[:-1] + b',"ood_bits":63}', proof, b"refused InvalidOodPowWitness"),
        ("the greatest log_height", "verify", honest[:-1] + b',"log_height":18446744073709551615}', proof, b"refused DegreeBitsTooSmall"),
        ("a statement with 100,000 names in an object", "show", more(b'"deep":{' + b",".join(b'"%d":0' % i for i in range(100_000)) + b"},"), None, bad),
        ("nothing", "show", b"", None, bad),
    ]


def said(text):
    """A JSON value without the members that are null; None of no JSON."""
    without = lambda members: {name: member for name, member in members if member is not None}
    try:
        return json.loads(text.decode("utf-8"), object_pairs_hook=without)
    except (UnicodeDecodeError, ValueError, RecursionError):
        return None


def says_the_same(text, honest):
    """Whether a proof that is accepted says what the honest one does: as bytes it has to be that one, as JSON it may be written otherwise."""
    return text == honest if honest.startswith(BINARY) else said(text) == said(honest)


def spoiled(text):
    """The text cut before each of its bytes, and with each byte replaced by each of seven."""
    for place in range(len(text)):
        yield f"cut before {place}", text[:place]
        for byte in BYTES:
            yield f"{chr(byte)} at {place}", text[:place] + bytes([byte]) + text[place + 1 :]


def sweep(runner, verb, honest, which):
    """Runs with one of two honest texts spoiled; what is accepted has to say what the honest one says."""

    def one(name, text):
        texts = [text if index == which else other for index, other in enumerate(honest)]
        return name, text, runner.run(verb, *texts)

    with ThreadPoolExecutor(os.cpu_count()) as pool:
        tasks = [pool.submit(one, name, text) for name, text in spoiled(honest[which])]
        for name, text, done in (task.result() for task in tasks):
            runner.tell(f"{('statement', 'second')[which]} {name}", verb, done, None)
            if done[0] == b"accepted" and not says_the_same(text, honest[which]):
                runner.faults.append(f"{verb} {which} {name}: accepted")


def summary(runner, what):
    """Prints how many runs there were, and the dearest of them."""
    (seconds, slow), (kilobytes, large) = runner.slowest, runner.largest
    print(f"{what}: {runner.runs} runs, at most {seconds:.3f} s ({slow}) and {kilobytes // 1024} MB ({large})", flush=True)
    runner.runs, runner.slowest, runner.largest = 0, (0, ""), (0, "")


def honest_airs():
    """Names of AIRs as large as the limits allow, and of two long ones, with a trace that satisfies each."""
    zeros, column = b"[[0],[0]]", [["main", 0]]
    wide = b"[[" + b"0," * (COLUMNS - 1) + b"0]]"
    tall = b"[" + b"[0]," * 4095 + b"[0]]"
    many = {"nodes": column + [["mul", 0, 0]] * (NODES - 1), "constraints": [{"base": k + 1} for k in range(CONSTRAINTS)]}
    return [
        ("a chain of 100,000 nodes", chain(100_000, lambda place: ["neg", place]), zeros),
        ("10,000 constraints", {"nodes": column + [["mul", 0, 0]] * 10_000, "constraints": [{"base": k + 1} for k in range(10_000)]}, zeros),
        (f"{COLUMNS} columns", {"width": COLUMNS, "nodes": column, "constraints": [{"base": 0}]}, wide),
        (f"{NODES} nodes, {CONSTRAINTS} constraints", many, zeros),
        (f"{NODES} constants", {"constants": [1] * NODES}, zeros),
        (f"{CELLS} fixed values", {"preprocessed": {"width": CELLS // 4096, "rows": [[1] * (CELLS // 4096)] * 4096}}, tall),
    ]


def run_honest(runner, config, airs):
    """Those AIRs checked, proved, verified and shown, with the time and the memory of each run."""
    for name, fields, trace in airs:
        name, text = f"{name_of(config)}, {name}", statement(config, **fields)
        checked = runner.run("check", text, trace, GIGABYTE)
        made = runner.run("prove", text, trace, GIGABYTE)
        verified = runner.run("verify", text, made[4], GIGABYTE)
        shown = runner.run("show", text, None, GIGABYTE)
        told = (("check", checked, b"satisfied"), ("prove", made, b'{"'), ("verify", verified, b"accepted"), ("show", shown, b"columns: "))
        for verb, done, wanted in told:
            runner.tell(name, verb, done, wanted)
            print(f"  {verb} {name}: {done[0][:40].decode()}, {done[2]:.3f} s, {done[3] // 1024} MB", flush=True)


def sweep_configuration(runner, config):
    """The counter of two rows with a configuration: its texts spoiled, long or odd, and AIRs that are blown up."""
    texts = named_texts("voskligan_texts.rt")
    honest, trace = with_config(texts["two rows"].split(b"\x1e")[0], {}), texts["two rows"].split(b"\x1e")[1]
    given = json.loads(honest)
    given["config"] = config
    honest = json.dumps(given, separators=(",", ":")).encode()
    proof = runner.run("prove", honest, trace)[4].rstrip(b"\n")
    runner.tell(name_of(config), "verify", runner.run("verify", honest, proof), b"accepted")
    for verb, second in (("verify", proof), ("prove", trace), ("check", trace)):
        sweep(runner, verb, (honest, second), 0)
        sweep(runner, verb, (honest, second), 1)
    sweep(runner, "show", (honest, None), 0)
    binary = runner.run("prove", honest, trace, options=["--binary"])[4]
    runner.tell(f"{name_of(config)}, as bytes", "verify", runner.run("verify", honest, binary), b"accepted")
    sweep(runner, "verify", (honest, binary), 1)
    summary(runner, f"{name_of(config)}, spoiled")
    for name, verb, first, second, wanted in long_texts(config, honest, proof, trace):
        runner.tell(f"{name_of(config)}, {name}", verb, runner.run(verb, first, second), wanted)
    summary(runner, f"{name_of(config)}, long or odd")
    run_large(runner, config, proof)
    run_high(runner, config, honest, proof)
    if "scheme" not in config:
        run_numbers(runner, honest, proof, trace)
    summary(runner, f"{name_of(config)}, blown up")


def sweep_statements(program):
    """Whatever a run did otherwise than it had to."""
    runner = Runner(program)
    forged = named_texts("voskligan_texts.rt")["forged"].split(b"\x1e")
    runner.tell("the forged proof", "verify", runner.run("verify", *forged), b"refused InvalidOpeningArgument")
    for config in configurations():
        sweep_configuration(runner, config)
    run_honest(runner, CLEAR, honest_airs())
    run_honest(runner, {"field": "baby_bear"}, honest_airs()[:2])
    summary(runner, "at the limits, and long")
    return runner.faults
