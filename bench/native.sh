# For bench/run --native: the archives' code compiled for this machine, where it is not x86-64. Sourced after common.sh.
# rt compiles for x86-64 alone. What it hands to its clang is an LLVM module; a kit of links, whose clang keeps a copy of that module, is enough to get
# it. The module names x86-64 in three places and is otherwise free of it.

links=$out/kit
kept=$out/module.bc
clang=$kit/on/$machine/toolchain/bin/clang

# link_all FROM TO NAME: links in TO to all that is in FROM, but for NAME
link_all() {
    mkdir -p "$2"
    for file in "$1"/*; do
        [ "$(basename "$file")" = "$3" ] || ln -sfn "$file" "$2/"
    done
}

make_kit() {
    link_all "$kit" "$links" on
    link_all "$kit/on/$machine" "$links/on/$machine" toolchain
    link_all "$kit/on/$machine/toolchain" "$links/on/$machine/toolchain" bin
    link_all "$kit/on/$machine/toolchain/bin" "$links/on/$machine/toolchain/bin" clang
    cat >"$links/on/$machine/toolchain/bin/clang" <<END
#!/bin/sh
for word; do
    case \$word in
    *.bc) cp "\$word" '$kept' ;;
    esac
done
exec '$clang' "\$@"
END
    chmod +x "$links/on/$machine/toolchain/bin/clang"
}

# compile_here CRATE: the module that was kept, to an object of this machine, with rt's own flags
compile_here() {
    [ -f "$kept" ] || stop "no module of $1 was kept"
    "$clang" --target=x86_64-unknown-linux-gnu -O0 -Xclang -disable-llvm-passes -S -emit-llvm -x ir "$kept" -o - |
        sed -e 's/ "target-cpu"="x86-64[^"]*"//' -e '/^target datalayout = /d' -e "s/^target triple = .*/target triple = \"$machine-unknown-linux-gnu\"/" >"$out/$1.ll"
    "$clang" "--target=$machine-unknown-linux-gnu" -O3 -fPIC -ffunction-sections -fdata-sections -mllvm -trap-unreachable -mllvm -no-trap-after-noreturn \
        -c -x ir "$out/$1.ll" -o "$out/$1.o" || stop "$1 could not be compiled for $machine"
    rm "$kept"
}

build_archives() {
    make_kit
    for crate in bridge adding engine; do
        step "proving and compiling for $machine: $crate"
        rm -f "$top/target/staticlib/lib$crate.a"
        RATTLE_HOME=$links "$top/tools/archives" $crate </dev/null >"$out/staticlib.log" 2>&1 || stop "the archive could not be built; see $out/staticlib.log"
        compile_here "$crate"
    done
}

compiler=$(command -v cc || command -v gcc) || stop 'no C compiler: install the Debian package gcc'
emulator=
static=
archive=$out/bridge.o
adding=$out/adding.o
engine=$out/engine.o
