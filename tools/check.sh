# What tools/check-desk and tools/check-label have in common: how a try is made and told. To be sourced by bash, once `me` is the
# name for messages. What is tried may use the folder work, which is gone at the end.

work=$(mktemp -d)
trap 'chmod -R u+w "$work"; rm -rf "$work"' EXIT
wrong=0

say() {
    echo "$me: $1"
}

# try WHAT COMMAND ..: the command has to end with 0; what it says is shown where it does not.
try() {
    local what=$1
    shift
    if "$@" >"$work/said" 2>&1; then
        say "ok: $what"
    else
        wrong=$((wrong + 1))
        say "WRONG: $what"
        sed 's/^/    /' "$work/said" | tail -n 40
    fi
}

# Most seconds from a fresh copy to what is compiled. The kit compiles only what it has proved, so this holds where checks on this
# machine have kept what they proved of the same sources: rt begins with that in a copy, too. Not measured yet with today's kit.
MOST_SECONDS=900

# sources TO NAME ..: files and folders of the project put into a folder, but for what rt keeps in them.
sources() {
    local to=$1
    shift
    mkdir -p "$to"
    tar -C "$root" --anchored --no-wildcards-match-slash --exclude='crates/*/out' --exclude='bindings/rust/target' -cf - "$@" | tar -C "$to" -xf -
}

# How many folders of work a build has left in a copy of the project.
left() {
    find "$1/target/native" -name '.work.*' 2>/dev/null | wc -l
}

# A command where there is no kit: no folder of the PATH has rt.
without_kit() {
    local folder path=
    for folder in ${PATH//:/ }; do
        [ -x "$folder/rt" ] || path=$path${path:+:}$folder
    done
    PATH=$path RATTLE_HOME='' "$@"
}

# A command as someone whom a tree that is read-only stops.
as_other() {
    chmod 755 "$work"
    if [ "$(id -u)" = 0 ]; then setpriv --reuid 65534 --regid 65534 --clear-groups "$@"
    else "$@"; fi
}
