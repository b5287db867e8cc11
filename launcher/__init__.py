"""The launcher of Glubotar: finds or builds the checker, runs it over traces, and reports what it said."""
VERSION = "1.0.0"    # include/glubotar.h has it too
MOST_BYTES = 65_536  # of a trace: the checker refuses a longer one with 21
