# shellcheck shell=sh disable=SC2154
# Read by ./ldm and ./examples, which set `here` (the top of the repository), `crate` (the program's crate), `backend` (llvm, or
# rattle, which compiles sooner) and `me` (the name to speak by). run_program runs the program where it is that of the sources. Else
# it hands over to tools/build, which builds the program first. So a program that is there needs no Python.
#
# A file beside the program has the sum of the sources that it was built of, its own sum and the kit's line. To sum the sources
# takes a while. So where they were found to be those of the program, a stamp beside it notes of each file its number, its size and
# its times. As long as nothing of that has changed, the next calls sum nothing.

NOT_BUILT=70

say() {
    echo "$me: $*" >&2
}

# The folder of the kit, or nothing where there is none.
kit_folder() {
    found=$(command -v rt) && dirname "$(dirname "$(readlink -f "$found")")"
}

# The kit's line, or nothing where there is no kit.
kit_line() {
    found=$(kit_folder) && head -n 1 "$found/KIT-ID"
}

# The folders that a build of $crate reads: those of the crate and of all that its row in crates.txt names.
folders() {
    for name in $crate $(sed -n "s/#.*//; s/,/ /g; s/^$crate *://p" "$here/crates.txt"); do
        for part in src specs proofs; do
            [ ! -d "$here/crates/$name/$part" ] || echo "crates/$name/$part"
        done
    done
}

# A sum of all that a build of $crate reads but the kit, as sum_of_sources in tools/build has it.
sum_of_sources() {
    (
        cd "$here" || exit 1
        # (no name of a crate or of its files has a blank)
        # shellcheck disable=SC2046
        find crates.txt HANDLES $(folders) -type f | LC_ALL=C sort -u | xargs sha256sum
    ) | sum_of
}

sum_of() {
    sha256sum | cut -d ' ' -f 1
}

# Whether the program is that of the sources, by the kit that is here; where there is none, by the one that built it.
is_current() {
    [ -x "$program" ] && [ -r "$program.sum" ] || return 1
    {
        read -r of_sources && read -r of_program && read -r of_kit
    } <"$program.sum"
    [ -n "$of_sources" ] && [ "$of_sources" = "$(sum_of_sources)" ] || return 1
    [ -n "$of_program" ] && [ "$of_program" = "$(sum_of <"$program")" ] || return 1
    kit_is=$(kit_line)
    [ -z "$kit_is" ] || [ "$kit_is" = "$of_kit" ]
}

# What the program, its sources and the kit look like from outside: of each file its number, its size and its times. The first
# two lines are the kit's command and folder, as a stamp that was read has them.
marks() {
    echo "$rt_is"
    echo "$kit_was"
    set -- "$here/crates.txt" "$here/HANDLES" "$here"/crates/*/src "$here"/crates/*/specs "$here"/crates/*/proofs
    [ -z "$rt_is" ] || set -- "$@" "$rt_is" "$kit_was/KIT-ID"
    find -L "$@" "$program" "$program.sum" -type f -printf '%p %D:%i %s %T@ %C@\n' 2>/dev/null
}

# Whether nothing has changed since the program was found to be that of the sources.
is_as_stamped() {
    [ -x "$program" ] && [ -r "$stamp" ] || return 1
    rt_is=$(command -v rt)
    {
        read -r rt_was && read -r kit_was && read -r _
    } <"$stamp" || return 1
    [ "$rt_is" = "$rt_was" ] && marks | cmp -s - "$stamp"
}

# Notes what was found to be current, as $1 looked before. What changed within the last seconds may change again within the
# same moment of the file system's clock: then nothing is noted.
write_stamp() {
    [ "$(marks)" = "$1" ] && [ "$(printf '%s\n' "$1" | wc -l)" -gt 2 ] || return 0
    youngest=$(printf '%s\n' "$1" | awk 'NR > 2 && $NF > most { most = $NF } END { printf "%d", most }')
    [ $((youngest + 2)) -lt "$(date +%s)" ] || return 0
    (printf '%s\n' "$1" >"$stamp.$$") 2>/dev/null && mv "$stamp.$$" "$stamp" 2>/dev/null
    return 0
}

name_files() {
    program=$here/crates/$crate/out/$crate
    stamp=$program.stamp
}

# Whether the program of $crate is there, and that of the sources.
is_built() {
    name_files
    is_as_stamped || is_current
}

# Runs the program with these words, once it is that of the sources. (A build takes the place of this call, so that a signal to it
# reaches the build.)
run_program() {
    name_files
    ! is_as_stamped || exec "$program" "$@"
    rt_is=$(command -v rt)
    kit_was=$(kit_folder)
    looked=$(marks)
    if is_current; then
        write_stamp "$looked"
        exec "$program" "$@"
    fi
    command -v python3 >/dev/null || {
        say "the program is not that of the sources, and there is no python3 to build it: see README.md"
        exit $NOT_BUILT
    }
    [ -r "$here/tools/build" ] || {
        say "$here/tools/build is missing"
        exit $NOT_BUILT
    }
    exec python3 "$here/tools/build" "$me" "$crate" "$backend" "$@"
}
