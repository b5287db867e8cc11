# Sourced at the root of the repository by scripts that link the checker's archive,
# which is compiled for x86-64 whatever the machine. Sets $archive, which has to be
# there and to be made from the sources as they are now; $cc and $cxx, a C and a C++
# compiler for it (installed where missing), $cxx with what it needs to link
# statically; and $emulator, which runs such programs here and is empty where nothing
# is needed.
archive=crates/glubotar_c/out/libglubotar_c.a
if [ ! -f "$archive" ]; then
    echo "$archive is missing; rt lib in crates/glubotar_c makes it" >&2
    exit 2
fi
newer=$(find crates/*/src crates.txt -newer "$archive" -print | head -n 1)
if [ -n "$newer" ]; then
    echo "$archive is older than $newer; rt lib in crates/glubotar_c makes it anew" >&2
    exit 2
fi

if [ "$(uname -m)" = x86_64 ]; then
    cxx=g++ package=g++
else
    cxx=x86_64-linux-gnu-g++ package=g++-x86-64-linux-gnu
fi
if ! command -v "$cxx" >/dev/null; then
    { apt-get update && apt-get install -y "$package"; } >&2 || {
        echo "$cxx is needed, and its package $package can't be installed" >&2
        exit 2
    }
fi
cc=${cxx%g++}gcc
if [ "$(uname -m)" != x86_64 ]; then
    # Debian's libm.a for this compiler is a script that names files by the paths
    # of an x86-64 machine; the library itself stands beside it.
    mkdir -p target/x86-64
    ln -sf "$(dirname "$("$cxx" -print-file-name=libm.a)")"/libm-*.a target/x86-64/libm.a
    cxx="$cxx -Ltarget/x86-64"
fi
emulator=$(dirname "$(rt doc)")/toolchain/bin/qemu-x86_64
[ -x "$emulator" ] || emulator=
