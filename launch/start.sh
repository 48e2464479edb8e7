# What the launchers of the programs share; they source this file. Each sets `top`, the folder of the
# repository, `command`, its own name, `name`, the crate of its program, and `waiting`, words with
# which that waits on a pipe (see launch/try). It runs the proved program where that is built and no
# source is newer than it. Else it compiles the sources, runs them unproved, and says so on standard
# error. What it compiled is kept in out/unproved until a source is newer.
proved=$top/crates/$name/out/$name
unproved=$top/out/unproved/$name

say() {
    printf '%s: %s\n' "$command" "$1" >&2
}

version() {
    commit=$(git -C "$top" rev-parse --short HEAD 2>/dev/null) && commit=" ($commit)"
    echo "$command $(cat "$top/VERSION")$commit"
}

# Prints the folders that hold the sources of the program and of the crates that it stands on, as
# crates.txt has them.
sources() {
    awk '
        { sub(/#.*/, "") }
        split($0, half, ":") == 2 { split(half[1], head, " "); below[head[1]] = half[2] }
        END {
            needed[count = 1] = program
            for (at = 1; at <= count; at++) {
                print needed[at] "/src", needed[at] "/specs", needed[at] "/proofs"
                parts = split(below[needed[at]], part, " ")
                for (it = 1; it <= parts; it++)
                    if (part[it] in below && !(part[it] in seen)) {
                        seen[part[it]] = 1
                        needed[++count] = part[it]
                    }
            }
        }' program="$name" "$top/crates.txt"
}

# Whether this program is there and no source is newer than it.
is_current() {
    [ -x "$1" ] || return 1
    # Some crates lack one of the folders, of which find complains.
    newer=$(cd "$top/crates" && find ../crates.txt $(sources) -newer "$1" 2>/dev/null | head -n 1)
    [ -z "$newer" ]
}

# Ends with status 125 where the toolchain's command isn't there.
need_toolchain() {
    command -v rt >/dev/null && return
    say "rt, the command of the toolchain, isn't on PATH"
    exit 125
}

# Proves and builds the program, where that isn't done yet.
prove() {
    if ! is_current "$proved"; then
        need_toolchain
        "$top/launch/prove" "$name" </dev/null >&2 || exit 1
    fi
    echo "$command is proved: $proved"
}

# Sets `program` to the one to run, which is compiled first where there is none.
choose() {
    program=$proved
    is_current "$program" && return
    program=$unproved
    # A check at run time that fails ends the program with a status that isn't one of its own.
    export ASAN_OPTIONS=exitcode=125
    state="this answer comes from a program that isn't proved yet, with checks that make it very slow"
    how="'rt ci' proves it in about an hour, and so does './$command --prove', step by step"
    if is_current "$program"; then
        say "$state; $how"
    else
        need_toolchain
        say "$state, and is compiled first, in about two minutes; $how"
        "$top/launch/try" "$name" "$program" $waiting </dev/null >&2 || exit 125
    fi
}
