#!/usr/bin/env python3
"""Counts what translations cost: instructions a word by callgrind, peak memory, and output words a word.

It makes programs of each kind at three sizes, each in a container with its true checksum, and runs them through ./vkd3d-compiler's
program and, where one is installed, through the vkd3d-compiler of Wine's vkd3d. Instructions are those of the translation alone: the
count of the smallest container, which is almost only start-up, is taken off.

Usage: bench/measure.py [--sizes N,N,..] [--kinds NAME,NAME,..] [DIRECTORY]

The containers stay in the directory; without one they are thrown away.
"""

import os
import re
import shutil
import subprocess
import sys
import tempfile

from programs import (
    at_register, constant_buffer, container, do, flat_id, group, indexable, l, mask, of, program, resource_raw, resource_structured,
    shared_raw, sync, temps, test, thread_id, to, to_register, uav_raw, uav_structured, view,
)

ROOT = os.path.dirname(os.path.dirname(os.path.abspath(__file__)))
OURS = os.environ.get("OURS", os.path.join(ROOT, "crates", "compiler_cli", "out", "compiler_cli"))
RETURN = do("ret")


def filled(words, front, piece, back=()):
    """A program of about so many words: the front, pieces by their numbers, what closes them, and ret."""
    parts = list(front)
    left = words - 2 - sum(map(len, parts)) - sum(map(len, back)) - 1
    i = 0
    while True:
        part = piece(i)
        if len(part) > left:
            break
        parts.append(part)
        left -= len(part)
        i += 1
    return program(*parts, *back, RETURN)


def r(n, c):
    return of("r", n, at=c)


def one_component(words):
    """iadd on one component of four registers."""
    return filled(words, [temps(4), group(1)], lambda i: do("iadd", to("r", i % 4, on="x"), r((i + 1) % 4, "x"), r((i + 2) % 4, "y")))


def four_components(words):
    """mov and iadd on four components of four registers."""
    def piece(i):
        a, b, c = i % 4, (i + 1) % 4, (i + 2) % 4
        return do("mov", to("r", a), l(1, 2, 3, 4)) + do("iadd", to("r", a), of("r", b), of("r", c))
    return filled(words, [temps(4), group(1)], piece)


def one_place(words):
    """Stores to one word of shared memory."""
    return filled(words, [shared_raw(0, 4), group(1)], lambda i: do("store_raw", to("g", 0, on="x"), l(0), l(1)))


def many_places(words):
    """Stores to 8,192 words of shared memory in turn."""
    return filled(words, [shared_raw(0, 32768), group(1)], lambda i: do("store_raw", to("g", 0, on="x"), l(4 * (i % 8192)), l(1)))


def registers(words):
    """Sums over the registers r0 to r4095 in turn."""
    return filled(words, [temps(4096), group(1)], lambda i: do("iadd", to("r", i % 4096, on="x"), r((i + 1) % 4096, "x"), l(1)))


def constants(words):
    """Moves of a new constant each."""
    return filled(words, [temps(1), group(1)], lambda i: do("mov", to("r", 0, on="x"), l(7919 * i + 1)))


def flat_flow(words):
    """Conditionals with two branches, one after the other."""
    def piece(i):
        add = do("iadd", to("r", 0, on="x"), r(0, "x"), l(1))
        return test("if", r(0, "y")) + add + do("else") + add + do("endif")
    return filled(words, [temps(1), group(1)], piece)


def nested_flow(words):
    """Loops with a conditional break, nested to 64, one nest after the other."""
    def piece(i):
        return (do("loop") + test("breakc", r(0, "y"))) * 64 + do("iadd", to("r", 0, on="x"), r(0, "x"), l(1)) + do("endloop") * 64
    return filled(words, [temps(1), group(1)], piece)


def cases(words):
    """One switch of many cases."""
    return filled(words, [temps(1), group(1), do("switch", r(0, "x"))], lambda i: do("case", l(i)) + do("break"), [do("endswitch")])


def relative(words):
    """Words of an array at a register's index."""
    def piece(i):
        return do("mov", to("r", i % 4, on="x"), at_register("x", 0, (i + 1) % 4, "y", at="x")) + do(
            "mov", to_register("x", 0, (i + 2) % 4, "z", on="x"), r(i % 4, "x"))
    return filled(words, [temps(4), indexable(0, 64), group(1)], piece)


def loads(words):
    """Raw loads of four words at a register's address."""
    return filled(words, [resource_raw(0), temps(4), group(1)], lambda i: do("ld_raw", to("r", i % 4), r((i + 1) % 4, "x"), of("t", 0)))


def stores(words):
    """Raw stores of four words at a register's address."""
    return filled(words, [uav_raw(0), temps(4), group(1)], lambda i: do("store_raw", to("u", 0), r(i % 4, "x"), of("r", (i + 1) % 4)))


def structured(words):
    """Structured loads and stores of four words."""
    def piece(i):
        return do("ld_structured", to("r", i % 4), r((i + 1) % 4, "x"), l(0), of("t", 0)) + do(
            "store_structured", to("u", 0), r((i + 1) % 4, "y"), l(0), of("r", i % 4))
    return filled(words, [resource_structured(0, 16), uav_structured(0, 16), temps(4), group(1)], piece)


def atomics(words):
    """Atomics on a view and on shared memory, with barriers between."""
    def piece(i):
        return do("imm_atomic_iadd", to("r", i % 4, on="x"), view("u", 0), r((i + 1) % 4, "x"), l(1)) + do(
            "atomic_umax", view("g", 0), r(i % 4, "y"), r(i % 4, "x")) + sync(memory=True, threads=True)
    return filled(words, [uav_raw(0), temps(4), shared_raw(0, 256), group(64)], piece)


KINDS = [one_component, four_components, one_place, many_places, registers, constants, flat_flow, nested_flow, cases, relative, loads,
         stores, structured, atomics]


def instructions(command, source):
    """How many instructions a run takes; none where valgrind is not there or the run is refused."""
    with tempfile.TemporaryDirectory() as work, open(source) as given:
        counts = os.path.join(work, "counts")
        run = subprocess.run(
            ["valgrind", "--tool=callgrind", "--callgrind-out-file=" + counts] + command,
            stdin=given, stdout=subprocess.DEVNULL, stderr=subprocess.PIPE, text=True,
        )
        found = re.search(r"Collected : (\d+)", run.stderr)
        return int(found.group(1)) if found and run.returncode == 0 else None


def measured(command, source):
    """Peak memory in megabytes, the words of the output, and the exit status; the memory is none without GNU time."""
    timed = shutil.which("time")
    front = [timed, "-f", "peak %M"] if timed else []
    with open(source) as given, tempfile.TemporaryFile() as out:
        child = subprocess.run(front + command, stdin=given, stdout=out, stderr=subprocess.PIPE, text=True)
        size = out.seek(0, os.SEEK_END)
    found = re.search(r"peak (\d+)", child.stderr)
    return int(found.group(1)) / 1024 if found else None, size // 4, child.returncode


def chosen(name, default):
    for word in sys.argv[1:]:
        if word.startswith(f"--{name}="):
            return word.split("=", 1)[1].split(",")
    return default


def main():
    kept = [word for word in sys.argv[1:] if not word.startswith("--")]
    work = kept[0] if kept else tempfile.mkdtemp()
    os.makedirs(work, exist_ok=True)
    sizes = [int(n) for n in chosen("sizes", ["1024", "8192", "65536"])]
    names = chosen("kinds", [kind.__name__ for kind in KINDS])
    tools = [("ours", [OURS])]
    theirs = shutil.which("vkd3d-compiler")
    if theirs:
        tools.append(("vkd3d", [theirs, "-b", "spirv-binary", "--buffer-uav=storage-buffer", "-"]))
    smallest = os.path.join(work, "smallest.dxbc")
    with open(smallest, "wb") as file:
        file.write(container(program(group(1), RETURN)))
    start = {name: instructions(command, smallest) for name, command in tools}
    print("| Program | Words | Tool | Instructions a word | Peak memory, MB | Output words a word |")
    print("|---|---|---|---|---|---|")
    for kind in KINDS:
        if kind.__name__ not in names:
            continue
        for size in sizes:
            words = kind(size)
            source = os.path.join(work, f"{kind.__name__}_{size}.dxbc")
            with open(source, "wb") as file:
                file.write(container(words))
            for name, command in tools:
                peak, output, status = measured(command, source)
                if status != 0:
                    print(f"| {kind.__doc__} | {len(words):,} | {name} | refused, status {status} | | |", flush=True)
                    continue
                count = instructions(command, source)
                spent = f"{(count - start[name]) / len(words):,.0f}" if count and start[name] else ""
                memory = f"{peak:.1f}" if peak is not None else ""
                print(f"| {kind.__doc__} | {len(words):,} | {name} | {spent} | {memory} | {output / len(words):.2f} |", flush=True)
    if not kept:
        shutil.rmtree(work)


if __name__ == "__main__":
    main()
