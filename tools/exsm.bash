# Completes the words of exsm and of its tools in bash: source it.

_exsm_offer() {                                   # offers of these words those that may be meant
    mapfile -t COMPREPLY < <(compgen -W "$1" -- "${COMP_WORDS[COMP_CWORD]}")
}

_exsm_files_here() {                              # offers names of files
    compopt -o filenames
    mapfile -t COMPREPLY < <(compgen -f -- "${COMP_WORDS[COMP_CWORD]}")
}

_exsm_kept() {                                    # offers names that a volume keeps; a reader of its bytes tells them, with --versions those of versions too
    local name word="${COMP_WORDS[COMP_CWORD]//\\/}"
    compopt -o filenames
    COMPREPLY=()
    while IFS= read -r -d '' name; do
        [[ "$name" == "$word"* ]] && COMPREPLY+=("$name")
    done < <(exsm_volume.py "${COMP_WORDS[1]}" list -0 "$@" 2>/dev/null)
}

_exsm() {
    case $COMP_CWORD in
    1) _exsm_offer "format run check gen clients dump load pack help --help --version" ;;
    2) if [ "${COMP_WORDS[1]}" = help ]; then _exsm_offer "format run check gen clients dump load pack"; else _exsm_files_here; fi ;;
    *)
        if [ "${COMP_WORDS[COMP_CWORD - 1]}" = --page-size ]; then
            _exsm_offer "512 1024 2048 4096 8192"
            return
        fi
        case "${COMP_WORDS[1]}" in
        format) _exsm_offer "--page-size --pages --segs --seg-len --fan" ;;
        run | clients) _exsm_offer "--max-bytes" ;;
        gen) _exsm_offer "--seed --count --anyway" ;;
        esac
        ;;
    esac
}

_exsm_new() {
    case "${COMP_WORDS[COMP_CWORD - 1]}" in
    --for) _exsm_offer "mixed large small" && return ;;
    esac
    if [ "$COMP_CWORD" = 1 ]; then _exsm_files_here; else _exsm_offer "80M 1G 16G --for"; fi
}

_exsm_files() {
    case $COMP_CWORD in
    1) _exsm_files_here ;;
    2) _exsm_offer "put get ls verify mv rm" ;;
    *)
        case "${COMP_WORDS[2]}:${COMP_WORDS[COMP_CWORD - 1]}" in
        put:* | get:-d | get:--folder) _exsm_files_here ;;
        *) _exsm_kept ;;
        esac
        ;;
    esac
}

_exsm_versions() {
    case $COMP_CWORD in
    1) _exsm_files_here ;;
    2) _exsm_offer "tree name unname freeze diff back" ;;
    *) _exsm_kept --versions ;;
    esac
}

_exsm_volume() {
    case $COMP_CWORD in
    2) _exsm_offer "check list get save mend" ;;
    *) _exsm_files_here ;;
    esac
}

_exsm_stream() {
    case $COMP_CWORD in
    2) _exsm_offer "check list get make" ;;
    *) _exsm_files_here ;;
    esac
}

_exsm_serve() {
    if [ "$COMP_CWORD" -le 2 ]; then _exsm_files_here; else _exsm_offer "--idle --wait"; fi
}

complete -F _exsm exsm
complete -F _exsm_new exsm_new.py
complete -F _exsm_serve exsm_serve.py
complete -F _exsm_files exsm_files.py
complete -F _exsm_volume exsm_volume.py
complete -F _exsm_stream exsm_stream.py
complete -F _exsm_versions exsm_versions.py
complete -F _exsm_files_here exsm_do.py exsm_map.py exsm_copy.py exsm_move.py exsm_backup.py
