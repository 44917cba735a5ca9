# What tools/archive and ./label have in common: the kit is found, has a crate proved, compiled for this machine and put in its
# place. To be sourced, by a POSIX shell too, once `me` is the name for messages and `root` the project's folder. What is made is
# in target/native.
#
# The kit compiles nothing that it has not proved. Where `rt check` or `rt ci` has proved the sources on this machine, what they
# kept is taken; else the proof is made first, which can take as long as the gate does. A module is what the kit's compiler makes
# of a crate and all that it reaches, before it makes code for a processor. Its own compile inlines few calls; native_build has it
# inline more. The kit's programs are for x86-64. On ARM they run only where the system starts such programs under an emulator by
# itself (qemu's, by binfmt_misc); what is compiled there is for ARM.

native_out=$root/target/native

# One sentence, and the end.
native_fail() {
    echo "$me: $1" >&2
    exit 2
}

# Where the kit is, or nothing: RATTLE_HOME, or where rt is.
native_kit_path() {
    if [ -n "${RATTLE_HOME:-}" ]; then
        echo "$RATTLE_HOME"
    elif command -v rt >/dev/null 2>&1; then
        dirname "$(dirname "$(readlink -f "$(command -v rt)")")"
    fi
}

# Sets kit, the kit's folder, machine, this machine's processor, and clang, the kit's compiler of modules.
native_kit() {
    kit=$(native_kit_path)
    [ -n "$kit" ] || native_fail "rt, the Rattle kit's command, is not on the PATH: README.md, \"The kit\", says where it is to be had"
    machine=$(uname -m)
    clang=$kit/toolchain/bin/clang
    [ -x "$kit/bin/rattle" ] && [ -x "$clang" ] || native_fail "$kit is not the folder of a kit that this project can use: README.md, \"The kit\", names it"
    case $machine in
    x86_64 | aarch64) ;;
    *) native_fail "nothing can be compiled for $machine: the kit is for Linux on x86-64, and compiles for ARM too" ;;
    esac
    "$clang" --version >/dev/null 2>&1 || native_fail "the kit in $kit is for x86-64, and its programs do not start on this $machine: they need an emulator"
}

# The version, which is in the C header alone.
native_version() {
    sed -n 's/^#define MAVISDROK_VERSION "\(.*\)"$/\1/p' "$root/bindings/c/mavisdrok.h"
}

# The crates that a crate names, of the project or of the kit.
native_uses() {
    sed -n "s/#.*//; s/^$1\( [^:]*\)\{0,1\}: *//p" "$root/crates.txt"
}

# Every crate of the project that a crate reaches, each once.
native_reached() (
    todo=$(native_uses "$1")
    found=
    while [ -n "$todo" ]; do
        next=
        for crate in $todo; do
            case " $found " in *" $crate "*) continue ;; esac
            [ -d "$root/crates/$crate" ] || continue
            found="$found $crate"
            next="$next$(native_uses "$crate") "
        done
        todo=${next% }
    done
    echo "$found"
)

# native_digest CRATE FILE ..: a number for the sources of CRATE and of all that it reaches, for these scripts and for the
# other files that what is made depends on, named from the project's folder.
native_digest() (
    cd "$root"
    crate=$1
    shift
    {
        uname -m
        for crate in $crate $(native_reached "$crate"); do
            [ ! -d "crates/$crate/src" ] || find "crates/$crate/src" -type f
        done | LC_ALL=C sort | xargs sha256sum
        sha256sum crates.txt tools/native.sh "$@"
    } | sha256sum | cut -d ' ' -f 1
)

# native_is_current NAME DIGEST: whether what was noted under NAME was made of these sources, by the kit that is here, and is
# still there as it was made. Where there is no kit, what was made is taken.
native_is_current() (
    cd "$native_out" 2>/dev/null && [ -f "$1.made" ] || exit 1
    [ "$(sed -n 1p "$1.made")" = "$2" ] || exit 1
    kit=$(native_kit_path)
    [ -z "$kit" ] || [ "$(sed -n 2p "$1.made")" = "$(cat "$kit/KIT-ID" 2>/dev/null)" ] || exit 1
    sed 1,2d "$1.made" | sha256sum -c --status 2>/dev/null
)

# A folder to work in, work, beside the place of what is made, so that this can be moved there at once. It goes when the shell
# ends, be it by a signal. Those that a shell which was killed has left are removed after a day.
native_begin() {
    mkdir -p "$native_out" 2>/dev/null && work=$(mktemp -d "$native_out/.work.XXXXXX" 2>/dev/null) ||
        native_fail "$native_out cannot be written to, and it is needed to compile: use a copy of the project that is yours"
    trap 'rm -rf "$work"' EXIT
    trap 'exit 129' HUP
    trap 'exit 130' INT
    trap 'exit 143' TERM
    find "$native_out" -maxdepth 1 -name '.work.*' -mtime +0 -exec rm -rf {} +
}

# native_place NAME DIGEST FILE ..: moves the files of work into target/native and notes what they were made of. The note goes
# last and names what it is of, so that of two builds at once, or of half a one, nothing is taken for what it is not.
native_place() {
    (
        cd "$work"
        name=$1
        digest=$2
        shift 2
        { echo "$digest" && cat "$kit/KIT-ID" && sha256sum "$@"; } >"$name.made"
        for file in "$@" "$name.made"; do mv -f "$file" "$native_out/$file"; done
    ) || native_fail "what was made cannot be moved to $native_out"
}

# A folder of tools whose compiler, handed a module, keeps its text, work/module.ll, turns it as the sed script work/turns says,
# if there is one, and compiles it as the kit asks but for one thing: how large a function may be that is inlined where it is
# called, and how much stack one may take that is inlined into a function which calls itself, is as much as any here needs, so
# that no state goes through memory from call to call. All else that the kit asks is kept, its guards against faults of the
# compiler and the words by which a call with too little stack stops at the guard page among it.
native_tools() {
    mkdir -p "$work/tools/bin"
    ln -s "$kit/toolchain/lib" "$work/tools/lib"
    for tool in "$kit"/toolchain/bin/*; do
        [ "$tool" = "$clang" ] || ln -s "$tool" "$work/tools/bin/${tool##*/}"
    done
    cat >"$work/tools/bin/clang" <<END
#!/bin/sh
set -eu
for word in "\$@"; do
    shift
    case \$word in
    *.bc)
        "$clang" --target=$machine-unknown-linux-gnu -x ir "\$word" -S -emit-llvm -O0 -Xclang -disable-llvm-passes -o "$work/module.ll"
        [ ! -f "$work/turns" ] || sed -i -f "$work/turns" "$work/module.ll"
        word="$work/module.ll"
        set -- "\$@" -mllvm -inline-threshold=30000 -mllvm -recursive-inline-max-stacksize=100000
        ;;
    esac
    set -- "\$@" "\$word"
done
exec "$clang" "\$@"
END
    chmod +x "$work/tools/bin/clang"
}

# native_build CRATE FILE: has rt prove the crate and those that it uses, over what it kept of them, and compiles the crate for
# this machine: FILE is a program's object file, or of a library an archive. rt's lines are shown as they come.
native_build() {
    native_tools
    crate=$1
    made=$2
    at=$root/crates/$crate
    (cd "$at" && "$kit/bin/rt" check </dev/null >&2) ||
        native_fail "crates/$crate, or a crate that it reaches, is not proved: \`rt check\` in its folder says why"
    if [ -f "$at/src/main.rt" ]; then set -- src/main.rt
    else set -- src/lib.rt --crate-type staticlib; fi
    set -- "$@" --crate-name "$crate" --links "$crate=" --extern "std=$kit/rlibs/std.rlib" -L "dependency=$kit/rlibs"
    for used in $(native_uses "$crate"); do
        if [ -d "$root/crates/$used" ]; then set -- "$@" --extern "$used=$root/crates/$used/out/rlib/$used.rlib"
        else set -- "$@" --extern "$used=$kit/rlibs/$used.rlib"; fi
    done
    for used in $(native_reached "$crate"); do
        set -- "$@" -L "dependency=$root/crates/$used/out/rlib"
    done
    case $machine in
    x86_64) set -- "$@" --target x86_64-unknown-linux-gnu --cpu x86-64 ;;
    aarch64) set -- "$@" --target aarch64-unknown-linux-gnu --cpu generic ;;
    esac
    (cd "$at" && "$kit/bin/rattle" build "$@" --antt-project "$kit/rattle/logic/antt-project.json" --logic-built "$kit/logic_built" \
        --incremental out/incremental --jobs 1 --toolchain "$work/tools" --backend llvm -o "$made") >"$work/log" 2>&1 || {
        cat "$work/log" >&2
        native_fail "rattle build of $crate failed"
    }
    [ -f "$work/module.ll" ] || native_fail "the kit's compiler did not hand on the module of $crate"
}
