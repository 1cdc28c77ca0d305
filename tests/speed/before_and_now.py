#!/usr/bin/env python3
"""The ratios of two runs side by side, as the table at the end of docs/SPEED.md.

    before_and_now.py BEFORE NOW    two files that tests/speed/run wrote; a call without a row before has dashes"""
import sys

HEAD = ('| call | ours / C before | ours / C | from 4,096 cells on, before | from 4,096 cells on '
        '| Rust / ours before | Rust / ours |')


def ratios(path):
    """For each call of a run: Rust / ours, ours / C, and both from 4,096 cells on."""
    lines = open(path, encoding='utf-8').read().split('### Ratios')[1].splitlines()
    rows = [[cell.strip() for cell in line.strip('|').split('|')] for line in lines if line.startswith('| `')]
    return {row[0]: row[1:] for row in rows}


def main(before, now):
    former, latter = ratios(before), ratios(now)
    print(f'\n{HEAD}\n|{"---|" * 7}')
    for call, (rust, c, _, large) in latter.items():
        rust_before, c_before, _, large_before = former.get(call, ['–'] * 4)
        print(f'| {" | ".join((call, c_before, c, large_before, large, rust_before, rust))} |')


if __name__ == '__main__':
    main(*sys.argv[1:])
