"""Sources and lists of steps to measure the program on, beside bench/loads."""
import random
from pathlib import Path

LOADS = Path(__file__).parent / "loads"
EFFECT = ("automaton C signature internal up states n: Int := 0 transitions internal up pre n < 5 eff n := 0", " tasks {up} automaton S components c: C\n")
STATEMENT = "; if n = 1 and not (n < 2) then n := n + 1 * (2 - n) mod 7 else n := len(q[0]) fi"


def source(size):
    """Returns a source of so many bytes, with as many statements as fit."""
    before, after = EFFECT
    return (before + STATEMENT * ((size - len(before + after)) // len(STATEMENT))).ljust(size - len(after)) + after


def ring(size):
    """Returns the source of a token ring of so many nodes."""
    head = (LOADS / "ring8.ioa").read_text().partition("c0:")[0].replace("0..7", f"0..{size - 1}")
    return head + ";\n".join(f"c{it}: Node({it}, {(it + 1) % size}, {str(it == 0).lower()})" for it in range(size)) + "\n"


def phold_with(size, others):
    """Returns the source of PHOLD with so many components, where component `it` sends to the three that are others(it)."""
    head = (LOADS / "phold64.ioa").read_text().partition("c0:")[0].replace("0..63", f"0..{size - 1}")
    return head + ";\n".join(f"c{it}: Node({', '.join(map(str, [it, *others(it)]))})" for it in range(size)) + "\n"


def phold(size):
    """Returns the source of PHOLD with so many components, 4 or more: each has a job, which goes to one of three others, drawn at random."""
    chance = random.Random(size)
    return phold_with(size, lambda it: [other + (other >= it) for other in chance.sample(range(size - 1), 3)])


def phold_of_neighbours(size):
    """Returns the source of PHOLD whose components stand in a circle, and send to the two next and the one before."""
    return phold_with(size, lambda it: [(it + away) % size for away in (1, 2, -1)])


def token_of_100():
    """Returns the source of Suzuki and Kasami's token whose requests are numbered from 0 to 99 in place of 15."""
    return (LOADS / "token.ioa").read_text().replace("0..15", "0..99")


def loads():
    """Returns the sources of bench/loads by their names, and those made here: a ring and PHOLD of 1,024 components have 30 and 33 KB."""
    generated = {"ring64": ring(64), "ring1024": ring(1024), "phold64near": phold_of_neighbours(64), "phold1024": phold(1024), "token100": token_of_100()}
    return {**{it.stem: it.read_text() for it in LOADS.glob("*.ioa")}, **generated}


def in_order(turns):
    """Returns steps of a token ring in the order of its turns, the lines that `reference` writes: each turn is done, each message is delivered
    and done at once, and before each 64th turn those before it are committed."""
    steps = []
    for place, turn in enumerate(turns):
        key, _, did = turn.rpartition(" ")
        component, to = key.split()[1], did[5:-1]
        steps += [f"commit {key}"] * (place % 64 == 0) + [f"process {component}"]
        if did != "idle":
            steps += [f"deliver + {to} {key} {did}", f"process {to}"]
    return steps


def there_and_back(times):
    """Returns steps of a ring of two: so often component 1 does an entry and rolls it back."""
    return ["process 1", "back 1"] * times


def stragglers(turns, depth, times):
    """Returns steps of a ring of two: so often component 1 does so many entries, which a message of component 0 takes back, and this is taken
    back itself."""
    message = "1 " + next(turn for turn in turns if turn.endswith(" pass(1)"))
    return (["process 1"] * depth + ["process 0", f"deliver + {message}", "back 0", f"deliver - {message}"]) * times


PRECONDITIONS = ("held > 0", "held mod 2 = 0", "held < 3", "not quiet", "held = seen mod 4", "seen >= held", "held >= 0")
EFFECTS = ("held := held + 1", "held := held - 1", "held := 0", "quiet := not quiet", "seen := seen + held", "held := seen mod 3; seen := seen + 1", "quiet := false", "if quiet then held := held + 2 else seen := seen + 1 fi")


def mesh(chance):
    """Returns the source of a composition of 2 to 12 components at random: each gives to one other, lends numbers to another, rests, and calls all
    listeners; when it may, and what comes of that, is drawn too."""
    size = chance.randrange(2, 13)
    pre, eff = (lambda: " pre " + chance.choice(PRECONDITIONS)), (lambda: " eff " + chance.choice(EFFECTS))
    outputs = ["output give(const me, const a)", "output lend(const me, const b, v: 0..2)", "internal rest(const me)", "output call(const me)"]
    inputs = ["input give(i: Id, const me)", "input lend(i: Id, const me, v: 0..2)"]
    lines = [f"type Id = 0..{size + 2}", "automaton Node(me: Id, a: Id, b: Id)", " signature", *(f"  {it}" for it in inputs + outputs)]
    lines += [" states held: Int := me mod 2, seen: Int := 0, quiet: Bool := false", " transitions"]
    lines += [f"  {it}{pre()}{' and v = seen mod 3' if 'v:' in it else ''}{eff()}" for it in outputs]
    lines += [f"  {it}{eff()}{'; seen := seen + v' if 'v:' in it else ''}" for it in inputs]
    tasks = chance.choice(["{ give, lend, rest, call }", "{ give, lend } { rest, call }", "{ give } { lend } { rest } { call }", "{ rest, give } { call, lend }"])
    lines += [f" tasks {tasks}", "automaton Listener", " signature", "  input call(i: Id)", "  output echo", " states heard: Int := 0", " transitions"]
    lines += ["  input call(i: Id) eff heard := heard + 1", "  output echo pre heard > 0 eff heard := heard - 1", " tasks { echo }"]
    lines += ["automaton Mesh", " components"]
    other = lambda it: chance.choice([to for to in range(size) if to != it])
    parts = [f"  c{it}: Node({it}, {other(it)}, {other(it)})" for it in range(size)]
    return "\n".join(lines) + "\n" + ";\n".join([*parts, "  listener: Listener"]) + "\n"
