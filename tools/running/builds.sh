# shellcheck shell=sh
# The built programs of ./shrinkers, and whether they are of the sources as they stand. Sourced by ./shrinkers.
#
# crates/shrinkers/out/shrinkers is the proved program, out/quick/shrinkers the same sources without their proofs, and
# out/first/shrinkers these without `audit`, which is built sooner. Beside each stands `built-from` (of the first in out/proved), with the checksum of what it was built from and that of the program, and `seen`, which was touched
# before these were last compared. If no file has changed since, the two checksums need not be computed again.

# shellcheck disable=SC2154
crate=$top/crates/shrinkers
proved=$crate/out/shrinkers
quick=$crate/out/quick/shrinkers
first=$crate/out/first/shrinkers

# The folder of a program's stamp.
stamps_of() {
    [ "$1" = "$proved" ] && echo "$crate/out/proved" || echo "${1%/*}"
}

# The parts of a crate that a program is built from.
parts_of() {
    [ "$1" = "$proved" ] && echo src specs proofs || echo src
}

# The program's crate and all that it stands on, in the order of crates.txt.
crates_used() {
    awk '
        /^[ \t]*(#|$)/ { next }
        {
            split($0, part, ":"); split(part[1], head, " "); name = head[1]
            order[++count] = name; needs[name] = part[2]
        }
        function take(name,    list, n, i) {
            if (!(name in needs) || name in taken) return
            taken[name] = 1
            n = split(needs[name], list, " ")
            for (i = 1; i <= n; i++) take(list[i])
        }
        END { take("shrinkers"); for (i = 1; i <= count; i++) if (order[i] in taken) print order[i] }
    ' "$top/crates.txt"
}

# The checksum of what a program is built from: these crates, and the kit.
sources_of() (
    cd "$top" || exit 1
    {
        rt version
        grep -v '^ *#' crates.txt
        for name in $(crates_used); do
            for part in $(parts_of "$1"); do
                [ -d "crates/$name/$part" ] && find "crates/$name/$part" -type f
            done
        done | LC_ALL=C sort | xargs sha256sum
    } | sha256sum | cut -d ' ' -f 1
)

sum_of() {
    sha256sum < "$1" | cut -d ' ' -f 1
}

# Whether nothing has changed since the checksums were last compared. It looks at the times of files and folders alone: a change
# of either, and a file that is moved here, sets the time of the change, which nobody can set back.
is_seen() {
    seen=$1/seen
    kit=$(command -v rt) || return 1
    [ -r "$seen" ] && read -r kit_then < "$seen" && [ "$kit_then" = "$kit" ] || return 1
    set -- "$2"
    for part in $(parts_of "$1"); do set -- "$@" "$top"/crates/*/"$part"; done
    [ -z "$(find -H "$kit" "$top/crates.txt" "$@" -cnewer "$seen" -print -quit 2>&1)" ]
}

# Whether a built program is of the sources as they stand.
is_fresh() {
    [ -x "$1" ] || return 1
    stamps=$(stamps_of "$1")
    if is_seen "$stamps" "$1"; then return 0; fi
    [ -r "$stamps/built-from" ] || return 1
    { command -v rt > "$stamps/seen.new"; } 2> /dev/null
    if [ "$(cat "$stamps/built-from")" = "$(sources_of "$1") $(sum_of "$1")" ]; then
        mv -f "$stamps/seen.new" "$stamps/seen" 2> /dev/null
        return 0
    fi
    rm -f "$stamps/seen.new" "$stamps/seen"
    return 1
}

# Notes that a program was built from the sources of this checksum.
mark() {
    stamps=$(stamps_of "$1")
    mkdir -p "$stamps" || return 1
    rm -f "$stamps/seen"
    echo "$2 $(sum_of "$1")" > "$stamps/built-from"
}

# What .ci/run calls once `rt ci` has proved and built the program, with the checksum of the sources before.
mark_proved() {
    [ -x "$proved" ] || { echo "shrinkers: rt ci left no program $proved" >&2; exit 1; }
    [ "$1" = "$(sources_of "$proved")" ] || { echo "shrinkers: the sources have changed meanwhile" >&2; exit 1; }
    mark "$proved" "$1"
}

prove() {
    now=$(sources_of "$proved")
    rm -f "$proved" "$(stamps_of "$proved")/built-from" "$(stamps_of "$proved")/seen"
    watched "$top/tools/build" proved || exit
    mark "$proved" "$now"
}

# Builds a program without its proofs; $1 is `first` or `quick`.
build_unproved() {
    chosen=$crate/out/$1/shrinkers
    now=$(sources_of "$chosen")
    watched "$top/tools/build" "$1" "$chosen" || exit
    mark "$chosen" "$now"
}

# Sets `chosen` to the program that answers a form. If there is no proved one, it is built without proofs, and kept.
choose() {
    chosen=$proved
    is_fresh "$proved" && return
    echo "shrinkers: not proved on this machine; './shrinkers --prove' proves and builds the program, which takes hours" >&2
    chosen=$quick
    is_fresh "$quick" && return
    case $1 in
        run | gen)
            chosen=$first
            is_fresh "$first" || build_unproved first ;;
        *) build_unproved quick ;;
    esac
}

state_of() {
    if is_fresh "$1"; then echo "of these sources, $1"; elif [ -x "$1" ]; then echo "older than the sources"; else echo "not built"; fi
}

show_version() {
    commit=$(git -C "$top" rev-parse --short=8 HEAD 2> /dev/null) || commit=unknown
    [ -z "$(git -C "$top" status --porcelain 2> /dev/null | head -n 1)" ] || commit="$commit, with changes"
    echo "shrinkers, commit $commit"
    echo "kit: $(rt version 2> /dev/null || echo 'none, rt is missing')"
    echo "proved program: $(state_of "$proved")"
    echo "program without proofs: $(state_of "$quick")"
    echo "program without proofs and audit: $(state_of "$first")"
}

show_built() {
    if is_fresh "$proved"; then
        printf '%s\n' "$proved"
        exit 0
    fi
    [ -x "$proved" ] && why="is older than the sources" || why="isn't built"
    echo "shrinkers: $proved $why; './shrinkers --prove' proves and builds it" >&2
    exit 1
}

# The forms that ask the program nothing of their own.
serve_own() {
    case $1 in
        --prove) prove ;;
        --built) show_built ;;
        --version | -V) show_version ;;
        --sources) sources_of "$proved" ;;
        --suite) choose suite; watched "$top/tools/suite" "$chosen"; exit ;;
        --check) choose check; watched "$top/tools/suite" --few "$chosen"; exit ;;
    esac
}
