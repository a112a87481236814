#!/usr/bin/env bash
# Runs goose with the words given, and builds and proves it first where that is needed (see tools/build).
# It ends with the program's own status, or with 125 where the program could not be built.
top=$(dirname "$(readlink -f "${BASH_SOURCE[0]}")")
program=$("$top/tools/build" </dev/null) || exit 125
exec "$program" "$@"
