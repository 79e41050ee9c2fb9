#!/usr/bin/env python3
"""The names that haythaw.h declares as functions: what the shared library exports, and nothing else.

    exports.py             a name a line
    exports.py --map       the linker's version script, of the major version
    exports.py --unmarked  the names without HAYTHAW_MUST_USE before them
"""
import os
import re
import sys

HEADER = os.path.join(os.path.dirname(os.path.abspath(__file__)), 'haythaw.h')


def main():
    with open(HEADER, encoding='utf-8') as file:
        text = re.sub(r'/\*.*?\*/', '', file.read(), flags=re.S)
    major = re.search(r'^#define HAYTHAW_VERSION_MAJOR (\d+)$', text, re.M)[1]
    names = re.findall(r'\b(haythaw_\w+)\s*\(', re.sub(r'^\s*#.*$', '', text, flags=re.M))
    if not names or len(names) != len(set(names)):
        sys.exit('exports.py: haythaw.h declares no function, or one twice')
    if sys.argv[1:] == ['--map']:
        print(f'HAYTHAW_{major} {{\nglobal:\n' + ''.join(f'    {name};\n' for name in sorted(names)) + 'local:\n    *;\n};')
    elif sys.argv[1:] == ['--unmarked']:
        marked = re.findall(r'\bHAYTHAW_MUST_USE\s+[\w\s*]*?\b(haythaw_\w+)\s*\(', text)
        print('\n'.join(sorted(set(names) - set(marked))))
    elif not sys.argv[1:]:
        print('\n'.join(sorted(names)))
    else:
        sys.exit(__doc__)


main()
