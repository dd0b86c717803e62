# What bench/run and bench/stack share: the archives, the compiler, and the emulator where one is needed. Sourced, with $top set.

stop() {
    printf 'bench: %s\n' "$1" >&2
    exit 1
}

step() {
    printf 'bench: %s\n' "$1"
}

bench=$top/bench
out=$top/target/bench
archive=$top/target/staticlib/libbridge.a # the unit
adding=$top/target/staticlib/libadding.a  # one vector added
engine=$top/target/staticlib/libengine.a  # the profiles of keys
mkdir -p "$out"

rt=$(command -v rt) || stop 'rt, the Rattle toolchain, is not on the path'
machine=$(uname -m)
kit=${RATTLE_HOME:-$(dirname "$(dirname "$(readlink -f "$rt")")")}
if [ "$machine" = x86_64 ]; then
    compiler=$(command -v cc || command -v gcc) || stop 'no C compiler: install the Debian package gcc'
    objdump=$(command -v objdump) || stop 'no objdump: install the Debian package binutils'
    emulator=
    static=
else
    compiler=$(command -v x86_64-linux-gnu-gcc) || stop 'x86_64-linux-gnu-gcc is missing: install the Debian package gcc-x86-64-linux-gnu'
    objdump=$(command -v x86_64-linux-gnu-objdump) || stop 'x86_64-linux-gnu-objdump is missing: install the Debian package binutils-x86-64-linux-gnu'
    emulator=$kit/on/$machine/toolchain/bin/qemu-x86_64
    [ -x "$emulator" ] || stop "no emulator at $emulator"
    static=-static
fi

# compile PROGRAM SOURCE..: the same flags for all, so that the comparison is fair
compile() {
    program=$out/$1
    shift
    "$compiler" -std=c11 -O2 -Wall -Wextra $static "-I$top/include" "-I$bench" -o "$program" "$@" "$archive" "$adding" "$engine" ||
        stop "$program could not be compiled"
}

# The emulator takes an instruction that clears memory a byte at a time, so there the C library does without.
launch() {
    if [ -n "$emulator" ]; then
        GLIBC_TUNABLES=glibc.cpu.x86_rep_stosb_threshold=1048576 "$emulator" "$@"
    else
        "$@"
    fi
}

build_archives() {
    for crate in bridge adding engine; do
        step "proving and building an archive: tools/archives $crate"
        "$top/tools/archives" $crate </dev/null >"$out/staticlib.log" 2>&1 || stop "the archive could not be built; see $out/staticlib.log"
        [ -f "$top/target/staticlib/lib$crate.a" ] || stop "no archive of $crate; see $out/staticlib.log"
    done
}
