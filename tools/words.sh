# What ./exsm and the installed exsm do with words before the program has them: help, a hint at a word that is no command, and
# no `gen` on a volume that holds something. Both source it.

# Tells all words, or those of one command: tell_help USAGE_FILE [COMMAND].
tell_help() {
    case "${2-}" in
    format | run | check | gen | clients | dump | load | pack)
        awk -v command="$2" '
            $1 == "usage:" { sub("usage:", "      ") }
            $1 == "exsm" { told = $2 == command; if (told) sub("      ", "usage:") }
            told' "$1"
        ;;
    *) cat "$1" ;;
    esac
}

# Whether the words ask for help: asks_help WORDS. Of `run --help` it is told by the program too, as wrong usage.
asks_help() {
    case "${1-}" in
    help | --help | -h) true ;;
    format | run | check | gen | clients | dump | load | pack) [ "${2-}" = --help ] && [ $# = 2 ] ;;
    *) false ;;
    esac
}

# The command of which help is wanted, or nothing.
helped_command() {
    case "$1" in
    help | --help | -h) printf %s "${2-}" ;;
    *) printf %s "$1" ;;
    esac
}

# Whether the first word is none that the program knows: that is wrong usage, whatever else the words are.
is_unknown() {
    case "${1-}" in
    "" | format | run | check | gen | clients | dump | load | pack) false ;;
    *) true ;;
    esac
}

# The letters of a word that can be shown, in lower case.
plain_word() {
    printf %s "$1" | LC_ALL=C tr -cd '[:print:]' | LC_ALL=C tr '[:upper:]' '[:lower:]'
}

# The command that a word of letters is near to: as many as two letters are other ones, missing, too many or changed about.
near_command() {
    awk -v word="$1" '
        function least(a, b) { return a < b ? a : b }
        function distance(one, two,    i, j, d, same) {
            for (i = 0; i <= length(one); i++) d[i, 0] = i
            for (j = 0; j <= length(two); j++) d[0, j] = j
            for (i = 1; i <= length(one); i++)
                for (j = 1; j <= length(two); j++) {
                    same = substr(one, i, 1) == substr(two, j, 1)
                    d[i, j] = least(least(d[i-1, j], d[i, j-1]) + 1, d[i-1, j-1] + !same)
                    if (i > 1 && j > 1 && substr(one, i-1, 2) == substr(two, j, 1) substr(two, j-1, 1))
                        d[i, j] = least(d[i, j], d[i-2, j-2] + 1)
                }
            return d[length(one), length(two)]
        }
        BEGIN {
            best = 3
            for (n = split("format run check gen clients dump load pack help", known, " "); n > 0; n--) {
                far = distance(word, known[n])
                if (far < best && far * 2 < length(known[n]) + 1) { best = far; near = known[n] }
            }
            if (near != "") print near
        }' 2>/dev/null
}

# What a first word that is no command may mean, or nothing: meant_by WORDS.
meant_by() {
    case "${2-}" in
    format | run | check | gen | clients | dump | load | pack)
        case "$1" in
        -*) ;;
        *) printf '%s %s' "$2" "$(printf %s "$1" | LC_ALL=C tr -cd '[:print:]')" && return ;;
        esac
        ;;
    esac
    word="$(plain_word "$1")"
    case "$word" in
    init | new | create | make | mkfs) echo format ;;
    exec | script | open) echo run ;;
    verify | fsck | test) echo check ;;
    version | -v | -version) echo --version ;;
    generate) echo gen ;;
    client | serve | schedule) echo clients ;;
    export | backup | stream) echo dump ;;
    import | restore) echo load ;;
    compact | defrag | vacuum) echo pack ;;
    *) near_command "$word" ;;
    esac
}

# Behind what the program says of words whose first is no command, what may be meant, in place of the usage of all commands:
# tell_unknown CAUSE WORDS. The last line is the one of the status, as always.
tell_unknown() {
    cause="$1"
    shift
    meant="$(meant_by "$@")"
    {
        printf '%s\n' "$cause"
        [ -z "$meant" ] || printf 'exsm: did you mean `exsm %s`?\n' "$meant"
        printf '%s\n' "exsm: \`exsm help\` tells all words" "exsm: status 2 usage"
    } >&2
}

# Runs the program on words whose first is no command, and tells of what it says the cause alone: run_unknown PROGRAM WORDS.
run_unknown() {
    program="$1"
    shift
    said="$("$program" "$@" 2>&1 </dev/null)"
    status=$?
    if [ $status = 2 ]; then
        tell_unknown "$(printf '%s\n' "$said" | head -n 1)" "$@"
    else
        printf '%s\n' "$said" >&2
    fi
    return $status
}

# Sets `volume` to the word that names it, or to nothing: find_volume WORDS, without the command.
find_volume() {
    volume=""
    while [ $# -gt 0 ]; do
        case "$1" in
        --*=*) ;;
        --*) [ $# -lt 2 ] || shift ;;
        *) volume="$1" && return ;;
        esac
        shift
    done
}

# What a volume holds, as `check` counts it, or nothing where it holds no file or can't be opened: held_in PROGRAM VOLUME.
held_in() {
    counted="$("$1" check "$2" 2>/dev/null </dev/null)" || return 0
    case "$counted" in
    *" files 0 "*) ;;
    *) printf %s "${counted#ok check }" ;;
    esac
}

# Ends with usage where a volume holds something, to which `gen` would add: spare_held PROGRAM WORDS, without the command.
spare_held() {
    program="$1"
    shift
    find_volume "$@"
    held="$(held_in "$program" "$volume")"
    [ -n "$held" ] || return 0
    shown="$(printf %s "$volume" | LC_ALL=C tr -cd '[:print:]')"
    [ "$shown" = "$volume" ] || shown="the volume"
    printf '%s\n' "exsm: $shown holds data ($held), and gen adds generated objects: nothing was done" \
        "exsm: to add them all the same, say --anyway" "exsm: status 2 usage" >&2
    exit 2
}

# Runs the program on words, in place of this process: run_program PROGRAM WORDS. Behind `gen` the word --anyway is none of the
# program's: it says that the volume may hold something.
run_program() {
    program="$1"
    shift
    if [ "${1-}" = gen ]; then
        anyway=""
        for word; do
            shift
            if [ "$word" = --anyway ]; then anyway=1; else set -- "$@" "$word"; fi
        done
        shift
        [ -n "$anyway" ] || spare_held "$program" "$@"
        set -- gen "$@"
    fi
    # A write past the limit of a file's size (ulimit -f) is refused, which the run tells, where its signal is held off.
    trap '' XFSZ
    exec "$program" "$@"
}
