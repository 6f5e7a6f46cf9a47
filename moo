#!/bin/sh
# Runs the program with the words given. If it isn't there yet, the shipped one is unpacked if it is of these sources; else it is built.
#
#   ./moo WORD ..              runs the program
#   ./moo --shipped WORD ..    runs the shipped program, also if the sources were changed
#   ./moo --build              builds it from its sources in any case, and runs nothing
here=$(cd "$(dirname "$0")" && pwd) || exit 1
if [ "${1-}" = --build ] && [ "$#" -eq 1 ]; then
    exec "$here/.ci/build"
fi
which=
if [ "${1-}" = --shipped ]; then
    which=--shipped
    shift
fi
program=$("$here/.ci/program" $which </dev/null) || exit 1
exec "$program" "$@"
