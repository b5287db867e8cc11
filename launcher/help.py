"""The help of each command."""

CHECK = """\
Usage: glubotar [check] [OPTION].. [TRACE]..
       glubotar explain [--all] TRACE..       what was refused, in plain words
       glubotar show [-n] TRACE [-o TEXT]     a trace as text; -n numbers its steps
       glubotar asm TEXT -o TRACE             a text as a trace
       glubotar join PART..                   the outputs of several runs as one
       glubotar install --prefix DIR          a copy that runs without this folder
Each command has its own --help. A first word that is a command is one: a trace of
such a name goes after an option or --.

Checks traces of GPU barrier steps. TRACE is a file, a folder (every *.trace in it
and below) or - for standard input, which is also read where no TRACE is given.

One trace: its lines, `N ok V D M` or `N no R` for each step, then `end A B`.
Several: a line for each, with tabs between the columns, and a line for all:
  NAME   accepted  refused   first    (first refusal as step:number, or -)
  NAME   -         -         unreadable
  total  traces    accepted  refused  unreadable  traces with a refusal
A script says --lines or --summary, so that one trace prints as several do.

  --lines        print all lines of each trace, with its name and a tab before each,
                 and the total
  --summary      print the line for each trace and the total, even for one trace
  --failed       leave out traces in which nothing was refused; the total counts them
  --format FORM  text (the default; on a terminal in columns, refused traces last),
                 tsv, json (an object to a line) or junit
  --from LIST    also check the traces that the file LIST (-: standard input) names,
                 one to a line, and print as for several
  --from0 LIST   the same, each name ended by a NUL byte
  -j, --jobs N   run N checkers side by side (default: one to a processor); the
                 output keeps the order of the traces
  -h, --help     print this
  --version      print the version
  --             take what follows for a TRACE, even if it starts with -

Exit status: 0 nothing was refused; 1 something was; 2 bad use, a trace that can't
be read, a failed build, or any doubt that all was checked. Standard error says what.
A trace in which warps still wait at its end is not refused: look for their exits.

Example: glubotar --jobs 8 --summary traces >release.tsv
"""
EXPLAIN = """\
Usage: glubotar explain [--all] [TRACE]..
Says of each refused step what it is, what refused it and where to look. The rules
are those of docs/TRACES.md. TRACE and the exit status are as for check.

  --all       say what each accepted step did, too
  -h, --help  print this

Example: glubotar explain examples/whole_case.trace
"""
SHOW = """\
Usage: glubotar show [-n] [TRACE] [-o TEXT]
Prints a trace as text, which `glubotar asm` turns back into the same bytes.

  -n          number the steps as the checker does
  -o TEXT     write that file, whole or not at all
  -h, --help  print this

Example: glubotar show -n examples/whole_case.trace
"""
ASM = """\
Usage: glubotar asm [TEXT] [-o TRACE]
Turns a readable text into the bytes of a trace. Bad lines are named on standard
error, and then nothing is written.

  -o TRACE    write that file, whole or not at all
  -h, --help  print this

Example: glubotar asm examples/whole_case.trace.txt -o whole_case.trace

"""
JOIN = """\
Usage: glubotar join [PART]..
Takes each PART (-: standard input) for the output of a run over several traces, as text
or tsv, without --lines and --failed; or of some such runs one after the other. Prints
the lines of all of them and one total, with the exit status of a run over all their
traces. A PART that was cut, or whose lines don't add up to its total, is named and
refused with 2.

  -h, --help  print this

Example: glubotar join parts/*.tsv >release.tsv
"""
INSTALL = """\
Usage: glubotar install --prefix DIR
Lays a copy into DIR that runs without the Rattle kit and without this folder:
DIR/bin/glubotar, DIR/lib/glubotar, and for C and C++ DIR/include/glubotar.h,
DIR/lib/libglubotar_c.a and DIR/lib/pkgconfig/glubotar.pc.

  -h, --help  print this

Example: ./glubotar install --prefix ~/.local
"""
HELP = {"check": CHECK, "explain": EXPLAIN, "show": SHOW, "asm": ASM, "join": JOIN, "install": INSTALL}
