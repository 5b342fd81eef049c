#!/usr/bin/env python3
"""Times the static rules on design files of up to 1 MiB.

    bench/rules.py PROGRAM

PROGRAM is the built simulator, crates/vhpisim/out/vhpisim after a call of
./vhpisim. Each text has many names, many uses of them or one long expression.
Those that break no rule are answered `NotBuilt`, since they can't be run yet;
the others the broken rule with its place. Prints for each text its size and
the seconds, and ends with status 1 if one is answered otherwise or takes 10
seconds or more.
"""
import os
import subprocess
import sys
import tempfile
import time

SIZE = 1 << 20


def design(declarations, statements, entity="entity e is end;"):
    return f"{entity}\narchitecture a of e is\n{declarations}begin\n{statements}end;\n"


def process(declarations, statements):
    return f"process\n{declarations}begin\n{statements}wait; end process;\n"


def each(count, line):
    return "".join(line(number) + "\n" for number in range(count))


def signals(count):
    return each(count, lambda n: f"signal s{n}:bit;")


def assigned(count, undeclared=-1):
    def line(n):
        other = "nosuch" if n == undeclared else f"s{(n * 7919 + 1) % count}"
        return f"s{n}<=s{n} and {other};"

    return each(count, line)


def chain(operand, operator, front, back, taken=0):
    room = SIZE - 200 - taken - len(front) - len(back)
    piece = operator + operand
    return front + operand + piece * (room // len(piece)) + back


def loops(count):
    return process("", each(count, lambda n: "for i in x to y loop null; end loop;"))


MANY = 20000
OVERLOADED = each(MANY, lambda n: f"type t{n} is (x);")
# Two literals of as many types, which share the last alone.
IN_TURN = each(29000, lambda n: f"type t{n} is ({'xy'[n % 2]});") + "type t is (x,y);\n"
IN_HALVES = each(29000, lambda n: f"type t{n} is ({'xy'[n // 14500]});") + "type t is (x,y);\n"
HALF_IN_TURN = each(14500, lambda n: f"type t{n} is ({'xy'[n % 2]});") + "type t is (x,y);\n"
# Names of which each two share a type of their own.
PAIRS = [(one, other) for one in range(165) for other in range(one)]

TEXTS = {
    "signals, each used twice": design(signals(MANY), assigned(MANY)),
    "the same, one undeclared": design(signals(MANY), assigned(MANY, 15000)),
    "constants, each of the one before": design(
        "constant c0:integer:=1;\n" + each(MANY, lambda n: f"constant c{n + 1}:integer:=c{n}+1;"), ""
    ),
    "names of one declaration": design("signal s0" + each(120000, lambda n: f",s{n + 1}") + ":bit;\n", ""),
    "subtypes, each of the one before": design(
        "subtype t0 is integer;\n" + each(MANY, lambda n: f"subtype t{n + 1} is t{n} range 0 to 9;"), ""
    ),
    "one expression of many operands": design("signal s:bit;\n", chain("s", " and ", "s<=", ";\n")),
    "a sum": design("signal n:integer;\n", chain("n", "+", "n<=", ";\n")),
    "a concatenation": design("signal v:bit_vector(0 to 1);\n", chain("v", "&", "v<=", ";\n")),
    "relations": design("signal b:boolean;\n", chain("1=1", " or ", "b<=", ";\n")),
    "an aggregate": design("signal v:bit_vector(0 to 1);\n", chain("'0'", ",", "v<=(", ");\n")),
    "literals of one type": design("type t is (x0" + each(100000, lambda n: f",x{n + 1}") + ");\n", ""),
    "a literal of many types": design(OVERLOADED + "signal s:t7;\n", each(90000, lambda n: "s<=x;")),
    "one expression of such literals": design(
        OVERLOADED + "signal s:t7;\nsignal b:boolean;\n", chain("s=x", " or ", "b<=", ";\n", len(OVERLOADED))
    ),
    "ranges of such literals": design(OVERLOADED + "type t is (x,y);\n", loops(MANY // 2)),
    "ranges of two such literals": design(IN_TURN, loops(12900)),
    "ranges of two others": design(IN_HALVES, loops(12900)),
    "such ranges, each in a process that has one more": design(
        HALF_IN_TURN, each(7500, lambda n: process("type u is (x);", "for i in x to y loop null; end loop;"))
    ),
    "ranges of two of many literals": design(
        "".join(f"type t{one}_{other} is (x{one},x{other});\n" for one, other in PAIRS),
        process("", "".join(f"for i in x{one} to x{other} loop null; end loop;\n" for one, other in PAIRS)),
    ),
    "choices": design(
        "",
        process("variable n:integer;\n", "case n is\n" + each(58000, lambda n: f"when {n}=>null;") + "when others=>null; end case;\n"),
    ),
    "labels": design("", each(MANY, lambda n: f"p{n}:process begin wait; end process;")),
    "loops in loops": design(
        "", process("", each(60, lambda n: f"for i{n} in 0 to 1 loop") + each(30000, lambda n: f"assert i{n % 60}=1;") + "end loop;" * 60)
    ),
    "variables of processes": design(
        "", each(12000, lambda n: f"process variable v:integer; begin v:=v+{n}; wait; end process;")
    ),
    "ports, each with its actual": "entity c is port (\n"
    + ";\n".join(f"p{n}:in bit" for n in range(MANY))
    + "); end;\n"
    + design("signal s:bit;\n", "x:entity work.c port map(\n" + ",\n".join(f"p{n}=>s" for n in range(MANY)) + ");\n"),
    "instances": "entity c is port (p:in bit); end;\n"
    + design("signal s:bit;\n", each(MANY, lambda n: f"x{n}:entity work.c port map(s);")),
    "architectures of an entity of many ports": "entity e is port (\n"
    + ";\n".join(f"p{n}:in bit" for n in range(MANY))
    + "); end;\n"
    + each(8000, lambda n: f"architecture a{n} of e is begin end;"),
    "entities": each(MANY, lambda n: f"entity e{n} is end entity e{n};"),
    "names that aren't declared": design("signal s:bit;\n", chain("x", " and ", "s<=", ";\n")),
}


def wanted(name, text):
    if name == "the same, one undeclared":
        return f"vhpisim: design: Static 5 {text.index('nosuch')}\n"
    if name == "names that aren't declared":
        return f"vhpisim: design: Static 5 {text.index('<=') + 2}\n"
    return "vhpisim: design: NotBuilt\n"


def main():
    if len(sys.argv) != 2:
        sys.exit(__doc__)
    program = os.path.abspath(sys.argv[1])
    slowest = 0.0
    with tempfile.TemporaryDirectory() as folder:
        path = os.path.join(folder, "design.vhd")
        for name, text in TEXTS.items():
            if len(text) > SIZE:
                sys.exit(f"{name}: {len(text)} bytes")
            with open(path, "w", encoding="ascii") as file:
                file.write(text)
            begin = time.monotonic()
            done = subprocess.run([program, "run", path, "1"], capture_output=True, check=False)
            seconds = time.monotonic() - begin
            slowest = max(slowest, seconds)
            said = done.stderr.decode()
            print(f"{seconds:7.3f}  {len(text):8}  {name}: {said.strip()}")
            if done.returncode != 1 or said != wanted(name, text):
                sys.exit(f"{name}: the program ended with status {done.returncode}")
    print(f"{slowest:7.3f}  the slowest")
    sys.exit(slowest >= 10)


main()
