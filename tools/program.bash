# What ./ksplice and ./prove share; both set `top`, the repository's folder, before they read this file.

program=ksplice_cli
proved=$top/crates/$program/out/$program # the gate puts the program there that it proves, too
unproved=$top/out/unproved/$program

# the crates that the program stands on, lowest first, and then its own, as crates.txt has them
crates=$(awk -F '[: ]+' -v program="$program" '
    !/^#/ && NF { name[++count] = $1; uses[$1] = $0 }
    END {
        needed[program]
        for (i = count; i > 0; i--)
            if (name[i] in needed) { below = split(uses[name[i]], word); for (k = 2; k <= below; k++) needed[word[k]] }
        for (i = 1; i <= count; i++) if (name[i] in needed) print name[i]
    }' "$top/crates.txt")

# is_current PROGRAM PART..: whether the program is there, and nothing in these folders of its crates is newer
is_current() {
    local made=$1 crate part sources=("$top/crates.txt")
    shift
    for crate in $crates; do
        for part; do [ ! -e "$top/crates/$crate/$part" ] || sources+=("$top/crates/$crate/$part"); done
    done
    [ -x "$made" ] && [ -z "$(find "${sources[@]}" -newer "$made" -print -quit)" ]
}

# make_room: makes the folder `room`, in which a program is made; `room/begun` is as old as the sources are at most. The
# folder goes when the script ends, however it does, and so does the command that `watched` has running.
make_room() {
    job=''
    room=$(mktemp -d "${TMPDIR:-/tmp}/ksplice.XXXXXX") && chmod 711 "$room" || exit 70 # the gate runs programs as nobody
    trap '[ -z "$job" ] || { kill "$job" && wait "$job"; } 2>/dev/null; rm -rf "$room"' EXIT
    trap 'exit 129' HUP
    trap 'exit 130' INT
    trap 'exit 143' TERM
    touch "$room/begun"
}

# watched TELL WORDS..: runs a command, whose temporary files and messages (`room/said`) go to the room, and has the
# function TELL say every second how far it is. Ends with the command's status, or where TELL fails, once that has ended.
watched() {
    local tell=$1 status
    shift
    TMPDIR=$room "$@" >"$room/said" 2>&1 </dev/null &
    job=$!
    while kill -0 "$job" 2>/dev/null && "$tell"; do sleep 1; done
    kill "$job" 2>/dev/null
    wait "$job"
    status=$?
    job=''
    return "$status"
}

# on_one_line TEXT: writes it over the line that stands last, on a terminal
on_one_line() {
    [ ! -t 2 ] || printf '\r\e[K%s' "$1" >&2
}

# put MADE PROGRAM: puts a program where it belongs, whole at any moment, and as old as its sources
put() {
    mkdir -p "${2%/*}" && cp "$1" "$2.$$" && touch -r "$room/begun" "$2.$$" && mv "$2.$$" "$2"
}
