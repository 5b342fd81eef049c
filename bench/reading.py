#!/usr/bin/env python3
"""Times the reading of design files of 1 MiB, each with one long list.

    bench/reading.py PROGRAM

PROGRAM is the built simulator, crates/vhpisim/out/vhpisim after a call of
./vhpisim. Each text is a design file of the language. Most break a static rule,
since their names aren't declared, and none can be run yet, so the program ends
with status 1 and says `Static` or `NotBuilt`. What isn't nested (operators
in a row, statements, the parts of a name, ..) is read and dropped without
recursion: a program that ran out of stack would end otherwise. Prints for each
text the seconds, and ends with status 1 if a text is answered otherwise or
takes 5 seconds or more.
"""
import os
import subprocess
import sys
import tempfile
import time

SIZE = 1 << 20
WANT = ("vhpisim: design: NotBuilt\n", "vhpisim: design: Static ")


def filled(front, part, back):
    """front, as many parts as fit, and back."""
    room = SIZE - len(front) - len(back)
    return front + part * (room // len(part)) + back


def concurrent(front, part, back):
    return filled("architecture a of e is begin " + front, part, back + " end;")


def sequential(front, part, back):
    return concurrent("process begin " + front, part, back + " end process;")


def value(front, part, back):
    return concurrent("s <= " + front, part, back + ";")


TEXTS = {
    "and": value("a", " and a", ""),
    "plus": value("a", "+a", ""),
    "times": value("a", "*a", ""),
    "signs and brackets": value("a", "+(-a)", ""),
    "relations": value("a=b", " or a=b", ""),
    "indices": value("a", "(1)", ""),
    "attributes": value("a", "'b", ""),
    "elements of an aggregate": value("(a", ",a", ")"),
    "choices": value("(1", "|1", "=>a)"),
    "elements of a waveform": value("a", ",a", ""),
    "alternatives": value("a", " when b else a", ""),
    "nested brackets": concurrent("", "s<=" + "(" * 64 + "a" + ")" * 64 + ";", ""),
    "concurrent assignments": concurrent("", "s<=a;", ""),
    "processes": concurrent("", "process begin end process;", ""),
    "instances": concurrent("", "u:entity f;", ""),
    "associations": concurrent("u:entity f port map(a", ",a", ");"),
    "null statements": sequential("", "null;", ""),
    "variable assignments": sequential("", "v:=a;", ""),
    "if statements": sequential("", "if a then end if;", ""),
    "elsif arms": sequential("if a then", " elsif a then", " end if;"),
    "arms of a case": sequential("case a is", " when a=>", " end case;"),
    "loops": sequential("", "loop end loop;", ""),
    "waits on names": sequential("wait on a", ",a", ";"),
    "declarations of a process": concurrent("process ", "variable v:bit;", "begin end process;"),
    "signals": filled("architecture a of e is ", "signal s:bit;", "begin end;"),
    "names of a signal": filled("architecture a of e is signal s", ",s", ":bit; begin end;"),
    "enumeration literals": filled("architecture a of e is type t is (a", ",a", "); begin end;"),
    "ports": filled("entity e is port(p:bit", ";p:bit", "); end;"),
    "generics": filled("entity e is generic(p:bit", ";p:bit", "); end;"),
    "libraries": filled("library a", ",a", "; entity e is end;"),
    "use clauses": filled("", "use a.b.c;", "entity e is end;"),
    "entities": filled("", "entity e is end;", ""),
}


def main():
    if len(sys.argv) != 2:
        sys.exit(__doc__)
    program = os.path.abspath(sys.argv[1])
    slowest = 0.0
    with tempfile.TemporaryDirectory() as folder:
        path = os.path.join(folder, "design.vhd")
        for name, text in TEXTS.items():
            with open(path, "w", encoding="ascii") as file:
                file.write(text)
            begin = time.monotonic()
            done = subprocess.run([program, "run", path, "1"], capture_output=True, check=False)
            seconds = time.monotonic() - begin
            slowest = max(slowest, seconds)
            said = done.stderr.decode()
            print(f"{seconds:7.3f}  {name}: {said.strip()}")
            if done.returncode != 1 or not said.startswith(WANT):
                sys.exit(f"{name}: the program ended with status {done.returncode}")
    print(f"{slowest:7.3f}  the slowest")
    sys.exit(slowest >= 5)


main()
