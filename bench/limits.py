#!/usr/bin/env python3
"""The limits of the sources, for scripts: a limit is a constant with a number of its own in a function `limits_are_these_numbers`, and
scripts read that number here.

    bench/limits.py [NAME]    prints the number of a limit, or all with their names and where they stand"""
import functools
import os
import re
import sys

TOP = os.path.dirname(os.path.dirname(os.path.realpath(__file__)))
BODY = re.compile(r'fn limits_are_these_numbers\(\)\n((?: +ensures.*\n)*)')
LIMIT = re.compile(r'\b([A-Z][A-Z_]*) ≡ (\d+(?: \* \d+)*) \}')


def value(product):
    """The number that a product of numbers is."""
    number = 1
    for factor in product.split(' * '):
        number *= int(factor)
    return number


@functools.cache
def limits():
    """The limits by their names, each with its number and the file that states it."""
    found = {}
    for here, folders, names in os.walk(os.path.join(TOP, 'crates')):
        folders[:] = [name for name in folders if name != 'out']
        for path in (os.path.join(here, name) for name in names if name.endswith('.rt')):
            with open(path, encoding='utf-8') as file:
                body = BODY.search(file.read())
            for name, product in LIMIT.findall(body[1] if body else ''):
                found[name] = value(product), os.path.relpath(path, TOP)
    return found


def limit(name):
    """The number of a limit."""
    return limits()[name][0]


def main():
    known = limits()
    if sys.argv[1:] and sys.argv[1] not in known:
        sys.exit(f'limits: no limit {sys.argv[1]}')
    for name in sys.argv[1:2]:
        print(known[name][0])
    for name, (number, path) in sorted(known.items()) if not sys.argv[1:] else ():
        print(f'{name} {number} {path}')


if __name__ == '__main__':
    main()
