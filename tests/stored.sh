#!/bin/sh
# Prints the cases of the named files, each file at its stage, as they are today: stored.sh FILE...
# stored.rs says what it fails for.
set -eu

tests=$(cd "$(dirname "$0")" && pwd)
. "$tests/compare/build.sh"
build_second "$tests"
build_stored
run "$built/stored" "$@"
