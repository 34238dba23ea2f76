#!/bin/sh
# Runs the exsm that was installed or unpacked. It tells all words, and the version, with status 0; the program itself has
# neither, and answers them as wrong usage.
self="$0"
if [ -L "$self" ]; then
    self="$(readlink -f "$self")"
fi
case "$self" in
*/*) here="${self%/*}" ;;
*) here=. ;;
esac
parts="$here/tools"
if [ ! -x "$parts/program" ]; then
    parts="$here/../lib/exsm"
fi
. "$parts/words.sh"
if asks_help "$@"; then
    tell_help "$parts/usage.txt" "$(helped_command "$@")"
    exit
fi
if [ "${1-}" = --version ]; then
    exec cat "$parts/version.txt"
fi
if is_unknown "$@"; then
    run_unknown "$parts/program" "$@"
    exit
fi
run_program "$parts/program" "$@"
