#!/usr/bin/env python3
"""Has a module of the kit's mark where jumps may end.

    marks.py MACHINE <module.ll >marked.ll

A program may be run so that an indirect jump ends only at a mark (CET's IBT on x86-64, BTI on Arm), and where a return address is kept
twice (SHSTK): each exported function gets the mark, an instruction that does nothing else, and the object says that it has them.
"""

import re
import sys


def marked(lines, arm):
    """The lines, and what has the compiler mark where jumps may end; on Arm each function asks for it by itself."""
    if any(line.startswith("!llvm.module.flags") for line in lines):
        sys.exit("marks.py: the module has flags of its own")
    groups = {group for line in lines if line.startswith("define ") for group in re.findall(r" (#\d+) \{$", line)}
    for line in lines:
        group = re.match(r"attributes (#\d+) = \{", line)
        if arm and group and group[1] in groups:
            line = line.replace("{", '{ "branch-target-enforcement"', 1)
        yield line
    flags = ["branch-target-enforcement"] if arm else ["cf-protection-branch", "cf-protection-return"]
    yield "!llvm.module.flags = !{" + ", ".join(f"!{9000 + at}" for at in range(len(flags))) + "}"
    for at, flag in enumerate(flags):
        yield f'!{9000 + at} = !{{i32 8, !"{flag}", i32 1}}'


def main():
    if len(sys.argv) != 2:
        sys.exit(__doc__)
    print("\n".join(marked(sys.stdin.read().splitlines(), sys.argv[1] == "aarch64")))


main()
