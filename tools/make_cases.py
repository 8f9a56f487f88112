#!/usr/bin/env python3
"""Writes the cases of the test programs, stdin, and what this separate implementation answers to each, stdout."""
import os

import answer_cases
import kind_cases
import ring_cases
import table_cases

CRATES = os.path.join(os.path.dirname(__file__), '..', 'crates')


def write(crate, cases):
    """Each case is a line of stdin and the line of stdout that answers it."""
    for name, column in (('stdin', 0), ('stdout', 1)):
        with open(os.path.join(CRATES, crate, name), 'w') as f:
            f.write(''.join(case[column] + '\n' for case in cases))


def bare_kinds():
    """Cases of trees as seriation_tests has them: the table alone, which is told of again before the answer."""
    for line, answer in kind_cases.cases():
        data = line.removeprefix('kinds ')
        yield data, data + ': ' + answer


def main():
    write('tables_tests', list(table_cases.cases()))
    write('seriation_tests', list(bare_kinds()))
    write('grounds_tests', list(ring_cases.cases()))
    write('cases', [case for part in (table_cases, kind_cases, ring_cases, answer_cases) for case in part.cases()])


if __name__ == '__main__':
    main()
