"""Where the launcher starts: the commands, and how it ends."""
from __future__ import annotations

import os
import signal
import sys

from launcher import VERSION
from launcher.options import Options, read_command_line
from launcher.signals import Interrupted, disregard, end_by, heed
from launcher.streams import Failure, NobodyReads, Output, fill_closed_streams, progress, read_file, reason, say, write_whole

ROOT = os.path.dirname(os.path.dirname(os.path.realpath(__file__)))


def check(options: Options, output: Output) -> int:
    from launcher.check import check as check_traces
    return check_traces(options, output, ROOT)


def explain(options: Options, output: Output) -> int:
    from launcher.explain import explain as explain_traces
    return explain_traces(options, output, ROOT)


def show(options: Options, output: Output) -> int:
    from launcher.text_form import show as text_of
    return put(options, output, text_of(contents(one_name(options, "trace")), options.numbered).encode())


def asm(options: Options, output: Output) -> int:
    from launcher.names import said
    from launcher.text_form import asm as bytes_of
    name = one_name(options, "text")
    data, complaints = bytes_of(contents(name), said(name))
    for complaint in complaints:
        say(complaint)
    return 2 if complaints else put(options, output, data)


def join(options: Options, output: Output) -> int:
    from launcher.join import join as join_outputs
    return join_outputs(options.names(), output)


def install(options: Options, _: Output) -> int:
    from launcher.install import install as install_copy
    if options.words or not options.prefix:
        raise Failure("install takes --prefix DIR alone; see --help")
    install_copy(ROOT, options.prefix)
    return 0


def one_name(options: Options, what: str) -> bytes:
    names = options.names()
    if len(names) > 1:
        raise Failure(f"one {what} at a time; see --help")
    from launcher.names import standard_input
    return names[0] if names else standard_input()


def contents(name: bytes) -> bytes:
    from launcher.names import said
    try:
        return read_file(name)
    except OSError as error:
        raise Failure(f"{said(name)} can't be read: {reason(error)}") from None


def put(options: Options, output: Output, data: bytes) -> int:
    """Writes what a command made where -o says."""
    if options.out == "-" or is_output(options.out):
        output.write(data)
        output.close()
        return 0
    try:
        write_whole(os.fsencode(options.out), data)
    except OSError as error:
        raise Failure(f"{options.out} can't be written: {reason(error)}") from None
    return 0


def is_output(name: str) -> bool:
    """Whether a name is that of standard output, which may be a file that others write to as well."""
    try:
        return os.path.samestat(os.stat(name), os.fstat(1))
    except OSError:
        return False


def help_of(command: str) -> bytes:
    from launcher.help import HELP
    if command != "asm":
        return HELP[command].encode()
    from launcher.text_form import grammar
    return (HELP[command] + grammar()).encode()


RUN = {"check": check, "explain": explain, "show": show, "asm": asm, "join": join, "install": install}


def run(words: list[str]) -> int:
    output = Output()
    command, options = read_command_line(words)
    if not options.help and not options.version:
        return RUN[command](options, output)
    output.write(help_of(command) if options.help else f"glubotar {VERSION}\n".encode())
    output.close()
    return 0


def main() -> int:
    fill_closed_streams()
    try:
        heed()
        try:
            return run(sys.argv[1:])
        except Failure as failure:
            say(str(failure))
            return 2
        finally:
            disregard()  # what is left to do is to end
    except NobodyReads:
        number = int(signal.SIGPIPE)
    except Interrupted as interrupted:
        number = interrupted.number
    progress.erase()
    end_by(number)
    return 2
