#!/usr/bin/env python3
"""Writes the longer containers of examples/, each with one chunk SHEX and a true checksum. Their assembly stands beside them.

Usage: bench/examples.py [DIRECTORY]    (without one, the folder examples/ of this repository)
"""

import os
import sys

from programs import (
    constant_buffer, container, do, flat_id, group, group_id, l, of, program, resource_raw, resource_structured, shared_structured, sync,
    temps, test, thread_id, to, uav_raw, uav_structured, view,
)

FLAT = of("vThreadIDInGroupFlattened", at="x")
THREAD = of("vThreadID", at="x")
GROUP = of("vThreadGroupID", at="x")


def r(n, c):
    return of("r", n, at=c)


def w(n, c):
    return to("r", n, on=c)


STRUCTURED_COPY = program(
    constant_buffer(0, 1), resource_structured(0, 16), uav_structured(0, 16), thread_id("x"), temps(1), group(64),
    do("uge", w(0, "x"), THREAD, of("cb", 0, 0, at="x")),
    test("retc", r(0, "x")),
    do("ld_structured", w(0, "xyzw"), THREAD, l(0), of("t", 0)),
    do("store_structured", to("u", 0), THREAD, l(0), of("r", 0)),
    do("ret"),
)

REDUCTION = program(
    resource_raw(0), uav_raw(0), flat_id(), group_id("x"), thread_id("x"), temps(2), shared_structured(0, 4, 64), group(64),
    do("ishl", w(0, "x"), THREAD, l(2)),
    do("ld_raw", w(0, "x"), r(0, "x"), of("t", 0, at="xxxx")),
    do("store_structured", to("g", 0, on="x"), FLAT, l(0), r(0, "x")),
    sync(memory=True, threads=True),
    do("mov", w(0, "y"), l(32)),
    do("loop"),
    do("ieq", w(0, "z"), r(0, "y"), l(0)),
    test("breakc", r(0, "z")),
    do("ult", w(0, "z"), FLAT, r(0, "y")),
    test("if", r(0, "z")),
    do("iadd", w(0, "w"), FLAT, r(0, "y")),
    do("ld_structured", w(1, "x"), r(0, "w"), l(0), of("g", 0, at="xxxx")),
    do("ld_structured", w(1, "y"), FLAT, l(0), of("g", 0, at="xxxx")),
    do("iadd", w(1, "x"), r(1, "x"), r(1, "y")),
    do("store_structured", to("g", 0, on="x"), FLAT, l(0), r(1, "x")),
    do("endif"),
    sync(memory=True, threads=True),
    do("ushr", w(0, "y"), r(0, "y"), l(1)),
    do("endloop"),
    do("if", FLAT),
    do("ld_structured", w(0, "x"), l(0), l(0), of("g", 0, at="xxxx")),
    do("ishl", w(0, "y"), GROUP, l(2)),
    do("store_raw", to("u", 0, on="x"), r(0, "y"), r(0, "x")),
    do("endif"),
    do("ret"),
)

APPEND = program(
    resource_raw(0), uav_structured(1, 4), thread_id("x"), temps(1), group(64),
    do("ishl", w(0, "x"), THREAD, l(2)),
    do("ld_raw", w(0, "x"), r(0, "x"), of("t", 0, at="xxxx")),
    do("ult", w(0, "y"), l(100), r(0, "x")),
    test("if", r(0, "y")),
    do("imm_atomic_alloc", w(0, "z"), view("u", 1)),
    do("store_structured", to("u", 1, on="x"), r(0, "z"), l(0), r(0, "x")),
    do("endif"),
    do("ret"),
)

SWITCH_IN_LOOP = program(
    uav_raw(0), thread_id("x"), temps(1), group(1),
    do("mov", w(0, "xy"), l(0, 0, 0, 0)),
    do("loop"),
    do("uge", w(0, "z"), r(0, "x"), l(6)),
    test("breakc", r(0, "z")),
    do("iadd", w(0, "x"), r(0, "x"), l(1)),
    do("switch", r(0, "x")),
    do("case", l(1)),
    do("iadd", w(0, "y"), r(0, "y"), l(1)),
    do("default"),
    do("iadd", w(0, "y"), r(0, "y"), l(10)),
    do("break"),
    do("case", l(3)),
    do("continue"),
    do("case", l(4)),
    do("iadd", w(0, "y"), r(0, "y"), l(1000)),
    do("break"),
    do("endswitch"),
    do("endloop"),
    do("store_raw", to("u", 0, on="x"), l(0), r(0, "y")),
    do("ret"),
)


def main():
    root = os.path.dirname(os.path.dirname(os.path.abspath(__file__)))
    folder = sys.argv[1] if len(sys.argv) > 1 else os.path.join(root, "examples")
    for name, words in [
        ("structured_copy", STRUCTURED_COPY), ("reduction", REDUCTION), ("append", APPEND), ("switch_in_loop", SWITCH_IN_LOOP),
    ]:
        with open(os.path.join(folder, name + ".dxbc"), "wb") as file:
            file.write(container(words))


if __name__ == "__main__":
    main()
