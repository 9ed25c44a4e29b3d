#!/usr/bin/env python3
"""Reads a program by `ast.parse`: python3 bench/parse.py PROGRAM."""

import ast
import sys


def main():
    with open(sys.argv[1], encoding="utf-8", newline="") as file:
        ast.parse(file.read())


if __name__ == "__main__":
    main()
