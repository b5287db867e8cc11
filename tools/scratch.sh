# Sourced by the gate. For every check the prover lays all that stands below the crate
# aside, in files by the hundred, and removes them again: on a disk that takes its time,
# in memory next to none. So where nobody has chosen a place, and memory has room (rt
# wants 3 GB) and lets programs start from there, it is taken.
if [ -z "${TMPDIR:-}" ] && [ -w /dev/shm ] && [ "$(df -k --output=avail /dev/shm | tail -n 1)" -gt 4000000 ]; then
    scratch=$(mktemp -d /dev/shm/glubotar.XXXXXX)
    trap 'rm -rf "$scratch"' EXIT
    # the programs run as nobody, each in a folder below this one
    chmod 711 "$scratch"
    printf '#!/bin/sh\n' >"$scratch/probe"
    chmod +x "$scratch/probe"
    ! "$scratch/probe" 2>/dev/null || export TMPDIR="$scratch"
fi
