"""Options on the command line."""
from __future__ import annotations

import argparse
import os
import re
from collections.abc import Iterator
from typing import Any, NoReturn

from launcher.names import said
from launcher.options import Options
from launcher.streams import Failure

WITH_VALUE = ("--format", "-j", "--jobs", "-o", "--prefix")
LISTS = {"--from": "from", "--from0": "from0"}


class Parser(argparse.ArgumentParser):
    """Options in any place. A mistake is one sentence."""

    def error(self, message: str) -> NoReturn:
        raise Failure(f"{said(os.fsencode(message))}; see --help")


class Form(argparse.Action):
    """--lines or --summary, not both."""

    def __call__(self, parser: Any, options: Any, value: Any, option: Any = None) -> None:
        if options.form not in (None, self.const):
            raise Failure(f"--{options.form} and --{self.const} don't go together")
        options.form = self.const


def jobs(text: str) -> int:
    if not re.fullmatch("[1-9][0-9]{0,3}", text):
        raise Failure(f"--jobs wants a number from 1 to 9999, not {said(os.fsencode(text))}")
    return int(text)


def parser_of(command: str) -> Parser:
    parser = Parser(prog="glubotar", add_help=False, allow_abbrev=False)
    add = parser.add_argument
    add("-h", "--help", action="store_true")
    if command == "check":
        add("--version", action="store_true")
        add("--lines", action=Form, nargs=0, const="lines", dest="form")
        add("--summary", action=Form, nargs=0, const="summary", dest="form")
        add("--failed", action="store_true")
        add("--format", choices=("text", "tsv", "json", "junit"))
        add("-j", "--jobs", type=jobs)
    elif command == "explain":
        add("--all", action="store_true")
    elif command == "install":
        add("--prefix")
    elif command in ("show", "asm"):
        add("-o", dest="out")
    if command == "show":
        add("-n", dest="numbered", action="store_true")
    return parser


def value_of(option: str, rest: Iterator[str]) -> str:
    """The word after an option, which is its value."""
    value = next(rest, "--")
    if value == "--":
        raise Failure(f"{option} wants a value; see --help")
    return value


def parse(command: str, words: list[str], options: Options) -> None:
    """Sets what the words say. Names and lists of names count in the order in which they stand; the rest is for argparse."""
    flags: list[str] = []
    rest = iter(words)
    for word in rest:
        option, equals, value = word.partition("=")
        if word == "--":
            options.words += [("trace", os.fsencode(name)) for name in rest]
        elif word == "-" or not word.startswith("-"):
            options.words.append(("trace", os.fsencode(word)))
        elif command == "check" and option in LISTS:
            options.words.append((LISTS[option], os.fsencode(value if equals else value_of(word, rest))))
        elif word in WITH_VALUE:
            flags.append(f"{word}={value_of(word, rest)}")
        else:
            flags.append(word)
    _, unknown = parser_of(command).parse_known_args(flags, options)
    if unknown:
        raise Failure(f"there is no option {said(os.fsencode(unknown[0]))}; see --help (a trace of that name goes after --)")
