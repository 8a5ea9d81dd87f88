#!/usr/bin/env python3
"""Times of `order` as ratios to a plain atomic increment on the same machine.

usage: bench/ratios.py [PROGRAM]

PROGRAM is the built program; without it, the one in crates/sj_main/out. Wants gcc. Each work is the same each
time, and is done whole and a quarter of it: where both ratios are alike, the time grows linearly. A time is
processor time of the whole command, with its output to /dev/null, and the least of five runs.

- run: a pipeline of 15 domains, each of which receives from the one before it, emits a signal and sends to the
  next one, up to the greatest run weight. Increments for each unit of the run weight.
- make: 16 domains at the greatest weight of a domain, with no turn. Increments for each unit of the weight.
- text: one domain with 1,024 signals of long names, all present in each tick. Increments for each byte.
- loop: one domain with a loop of many statements, each fourth a pause, in many turns. Increments for each
  statement and turn; the statements are what is cut to a quarter.

Seven works time reading alone: a source of 1 MiB that is a program of the grammar but for its last brace, and is refused
at its end. Increments for each byte; the goal is at most 6.

- written: statements with names of some letters, one on a line, indented.
- wide: assignments of expressions with 256 operators between names of some letters, with spaces.
- statements: one domain with statements of many forms, of names of one letter, without spaces.
- operators: assignments of expressions with 256 operators, of all levels in turn, likewise.
- parentheses: assignments of names in 62 parentheses.
- comments: of both forms.
- ports: outputs, each of a name of its own.

Four works time what comes behind the reading too. Increments for each byte. `named_wide` and `named_ports` are `wide` and
`ports` with the last brace, refused for a name and for their number; the other two are right in names and kinds, and are
refused for a form that isn't built.

- names: domains with local signals in nested blocks, of names that differ in their last bytes alone; then an emission
  of each; then traps of one name, declared again and again.
- kinds: assignments of expressions with 256 operators, to and over variables of all kinds.
"""
import os
import subprocess
import sys
import tempfile

TOP = os.path.dirname(os.path.dirname(os.path.abspath(__file__)))
PROGRAM = os.path.join(TOP, "crates", "sj_main", "out", "sj_main")
RUNS = 5
MOST_RUN_WEIGHT = 4_000_000
MOST_WEIGHT = 100_000
MOST_SOURCE_BYTES = 1_048_576
MOST_OPERATORS = 256
MOST_OPEN = 64
MOST_SIGNALS = 1024
INCREMENTS = 50_000_000

COUNTER = """
int main(void) {
    static unsigned long counter;
    for (long i = 0; i < %d; i++)
        __atomic_fetch_add(&counter, 1, __ATOMIC_SEQ_CST);
    return counter == 0;
}
"""


def measured(command, wanted=0):
    """Of a command's run that takes the least of processor time: seconds, the system's part, megabytes."""
    best = None
    for _ in range(RUNS):
        with open(os.devnull, "w", encoding="ascii") as nothing:
            child = subprocess.Popen(command, stdout=nothing)
            _, status, used = os.wait4(child.pid, 0)
        if os.waitstatus_to_exitcode(status) != wanted:
            sys.exit(f"{command}: status {os.waitstatus_to_exitcode(status)} in place of {wanted}")
        took = used.ru_utime + used.ru_stime
        if best is None or took < best[0]:
            best = (took, used.ru_stime / took, used.ru_maxrss / 1024)
    return best


def system(ports, domains):
    return "system{interface{" + "".join(ports) + "}" + "><".join(domains) + "}"


def signal(name):
    return f"output signal {name};"


def run_work(part):
    """Of each domain, rounds * 2; of each of the 28 ends, 2 * rounds + 1."""
    domains = 15
    most = (MOST_RUN_WEIGHT - 2 * (domains - 1)) // (domains * 2 + (domains - 1) * 4)
    rounds = most // part
    weight = domains * rounds * 2 + 2 * (domains - 1) * (2 * rounds + 1)

    def stage(n):
        take = f"receive C{n - 1};" if n > 0 else ""
        give = f"send C{n}({n});" if n < domains - 1 else ""
        return "{while(true){" + take + f"emit S{n};" + give + "}}"

    ports = [signal(f"S{n}") for n in range(domains)]
    ports += [f"int channel C{n};" for n in range(domains - 1)]
    return system(ports, [stage(n) for n in range(domains)]), f"rr:{rounds}", weight


def make_work(part):
    """Each statement of the loop counts in the starting tick and in the resuming one."""
    statements = (MOST_WEIGHT // part - 3) // 2
    emissions = statements // 21
    names = "ABCDEFGHIJKLMNOP"
    domains = [
        "{while(true){" + f"emit {name};" * emissions + ";" * (statements - emissions) + "pause;}}"
        for name in names
    ]
    return system([signal(name) for name in names], domains), "-", len(names) * (2 * statements + 3)


def text_work(part):
    """Each tick has 1,024 names of 64 bytes, each after a space, and its number and stamp."""
    names = [f"S{n:063d}" for n in range(1024)]
    ticks = MOST_RUN_WEIGHT // (len(names) + 1) // part
    body = "".join(f"emit {name};" for name in names)
    source = system(map(signal, names), ["{while(true){" + body + "pause;}}"])
    head = len(f"domain 0 ticks {ticks} paused\n")
    lines = sum(len(f"{n} @{n}\n") + 65 * len(names) for n in range(1, ticks + 1))
    return source, f"rr:{ticks}", head + lines


def loop_work(part):
    statements = 32_000 // part
    turns = 8_000
    body = "emit A;emit B;emit A;pause;" * (statements // 4)
    source = system([signal("A"), signal("B")], ["{while(true){" + body + "}}"])
    return source, f"rr:{turns}", statements * turns


def unended(work):
    """A work whose source has no last brace, so that nothing is done with it behind the reading."""
    source, turns, units = work
    return source[:-1], turns, units - 1


def unbuilt(part, piece, ports="", declared=""):
    """A source of this part of the greatest size: its first port is an input, and its block has these declarations and
    then these pieces."""
    front = "system{interface{input signal I;" + ports + "}{" + declared
    back = "}}"
    room = MOST_SOURCE_BYTES // part - len(front) - len(back)
    source = front + (piece * (room // len(piece))).ljust(room) + back
    return source, "-", len(source)


WRITTEN = """\
        // the walkers wait ten seconds at most
        abort (immediate reset) {
            present (button && !walking) {
                waited = waited + 1;
            } else {
                emit carsGreen(waited);
            }
            await (second);
            if (waited >= limit) {
                send crossing(waited - limit);
            }
        }
"""


def written_work(part):
    return unended(unbuilt(part, WRITTEN))


def named_wide_work(part):
    signs = (" + ", " * ", " - ", " & ", " | ", " ^ ")
    names = ("speed", "target", "gain", "pressure", "offset")
    more = "".join(signs[n % len(signs)] + names[n % len(names)] for n in range(MOST_OPERATORS))
    return unbuilt(part, f"level = base{more};\n")


def wide_work(part):
    return unended(named_wide_work(part))


def statements_work(part):
    return unended(unbuilt(part, "emit S;pause;x=y+1;send C(7);receive C;present(A&&!B){halt;}else{;}abort(A){await(B);}"))


def operators_work(part):
    signs = ("||", "&&", "|", "^", "&", "==", "<", "<<", "+", "*")
    more = "".join(signs[n % len(signs)] + "a" for n in range(MOST_OPERATORS))
    return unended(unbuilt(part, f"x=a{more};"))


def parentheses_work(part):
    """The braces of the program and of its domain are open too."""
    count = MOST_OPEN - 2
    return unended(unbuilt(part, "x=" + "(" * count + "a" + ")" * count + ";"))


def comments_work(part):
    return unended(unbuilt(part, "/* * ** / */// to the end of the line\n"))


def named_ports_work(part):
    count = MOST_SOURCE_BYTES // part // len(signal("S000000")) - 3
    return unbuilt(part, " ", "".join(signal(f"S{n:06d}") for n in range(count)))


def ports_work(part):
    return unended(named_ports_work(part))


def names_work(part):
    """Each domain takes a quarter of the greatest size. In the exit of a trap the most levels are open."""
    depth = MOST_OPEN - 4
    each = MOST_SIGNALS // depth
    names = [f"S{n:063d}" for n in range(depth * each)]
    blocks = [names[n : n + each] for n in range(0, len(names), each)]
    declared = "".join("{" + "".join(f"signal {name};" for name in block) for block in blocks)
    front = "{" + declared + "".join(f"emit {name};" for name in names)
    back = "}" * (depth + 1)
    trap = "trap(T){exit(T);}"
    count = 4
    room = (MOST_SOURCE_BYTES - len(system([], [""] * count))) // count - len(front) - len(back)
    domain = front + trap * (room // len(trap)) + back
    source = system([], [domain] * (count // part))
    return source, "-", len(source)


def kinds_work(part):
    declared = "boolean a=true;byte b=1;short c=2;char d='3';int e=4;long f=5;"
    signs = ("|", "^", "&", "<<", "+", "*", ">>>", "-")
    numbers = "".join(signs[n % len(signs)] + "bcdef"[n % 5] for n in range(MOST_OPERATORS))
    tests = ("||", "&&", "|", "^", "&", "==", "!=")
    truths = "".join(tests[n % len(tests)] + "a" for n in range(MOST_OPERATORS))
    return unbuilt(part, f"f=b{numbers};a=a{truths};", declared=declared)


WORKS = (
    ("run", "unit of run weight", "", run_work),
    ("make", "unit of weight", "", make_work),
    ("text", "byte", "", text_work),
    ("loop", "statement and turn", "", loop_work),
    ("written", "byte", "refused Syntax", written_work),
    ("wide", "byte", "refused Syntax", wide_work),
    ("statements", "byte", "refused Syntax", statements_work),
    ("operators", "byte", "refused Syntax", operators_work),
    ("parentheses", "byte", "refused Syntax", parentheses_work),
    ("comments", "byte", "refused Syntax", comments_work),
    ("ports", "byte", "refused Syntax", ports_work),
    ("named_wide", "byte", "refused Unknown", named_wide_work),
    ("named_ports", "byte", "refused TooMany", named_ports_work),
    ("names", "byte", "refused Later", names_work),
    ("kinds", "byte", "refused Later", kinds_work),
)


def want_refused(command, told):
    """The source is read whole, and refused for this reason."""
    text = subprocess.run(command, stdout=subprocess.PIPE, check=False).stdout
    if not text.startswith(told.encode("ascii")):
        sys.exit(f"{command}: {text}")


def increment(folder):
    """Seconds for one increment."""
    source = os.path.join(folder, "counter.c")
    with open(source, "w", encoding="ascii") as out:
        out.write(COUNTER % INCREMENTS)
    built = os.path.join(folder, "counter")
    subprocess.run(["gcc", "-O2", "-o", built, source], check=True)
    return measured([built])[0] / INCREMENTS


def main():
    program = os.path.abspath(sys.argv[1]) if len(sys.argv) > 1 else PROGRAM
    if not os.access(program, os.X_OK):
        sys.exit(f"{program}: not built; bin/sievecape builds it")
    with tempfile.TemporaryDirectory() as folder:
        plain = increment(folder)
        print(f"a plain atomic increment: {plain * 1e9:.2f} ns")
        for name, unit, told, work in WORKS:
            for part in (4, 1):
                source, turns, units = work(part)
                path = os.path.join(folder, "work.sysj")
                with open(path, "w", encoding="ascii") as out:
                    out.write(source)
                command = [program, "order", path, turns, "-"]
                if told:
                    want_refused(command, told)
                took, system_part, held = measured(command, 1 if told else 0)
                each = took / units / plain
                print(
                    f"{name:11s}  {took * 1000:7.1f} ms, {system_part:4.0%} system  {held:5.1f} MB  {units:11,d}"
                    f"  {each:7.3f} increments for each {unit}"
                )


if __name__ == "__main__":
    main()
