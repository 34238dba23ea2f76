#compdef exsm exsm_new.py exsm_files.py exsm_versions.py exsm_volume.py exsm_do.py exsm_map.py exsm_copy.py exsm_move.py exsm_backup.py exsm_stream.py exsm_serve.py
# Completes the words of exsm and of its tools in zsh.

_exsm_kept() {                                    # names that a volume keeps; a reader of its bytes tells them
    local -a kept more
    if [[ "$service" == exsm_versions.py ]]; then more=(--versions); fi
    kept=("${(0)$(exsm_volume.py "$words[2]" list -0 $more 2>/dev/null)}")
    compadd -- ${kept:#}
}

_exsm_words() {                                   # these words where the first behind the volume stands, and then names
    if (( CURRENT == 3 )); then
        compadd -- "$@"
    elif [[ "$words[3]" == (put|save|mend|check) || "$words[CURRENT-1]" == (-d|--folder) ]]; then
        _files
    else
        _exsm_kept
    fi
}

_exsm_program() {
    case "$CURRENT:$words[2]:$words[CURRENT-1]" in
    2:*) compadd -- format run check gen clients dump load pack help --help --version ;;
    3:help:*) compadd -- format run check gen clients dump load pack ;;
    3:*) _files ;;
    *:format:--page-size) compadd -- 512 1024 2048 4096 8192 ;;
    *:format:*) compadd -- --page-size --pages --segs --seg-len --fan ;;
    *:run:* | *:clients:*) compadd -- --max-bytes ;;
    *:gen:*) compadd -- --seed --count --anyway ;;
    esac
}

if [[ "$service" != exsm && $CURRENT == 2 ]]; then
    _files
    return
fi
case "$service" in
exsm) _exsm_program ;;
exsm_new.py)
    if [[ "$words[CURRENT-1]" == --for ]]; then compadd -- mixed large small; else compadd -- 80M 1G 16G --for; fi
    ;;
exsm_files.py) _exsm_words put get ls verify mv rm ;;
exsm_versions.py) _exsm_words tree name unname freeze diff back ;;
exsm_volume.py) _exsm_words check list get save mend ;;
exsm_stream.py) if (( CURRENT == 3 )); then compadd -- check list get make; else _files; fi ;;
exsm_serve.py) if (( CURRENT == 3 )); then _files; else compadd -- --idle --wait; fi ;;
*) _files ;;
esac
