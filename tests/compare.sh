#!/bin/sh
# Compares the archive with the independent implementation: compare.sh [SEED] [CASES] [MOST], so many
# random cases beside the fixed ones, until so many differences are found. Differences and the
# report go to standard output, progress to standard error. A line with '=>' can be put into a file
# of cases/ as it is. HV_ARCHIVE names another archive.
set -eu

tests=$(cd "$(dirname "$0")" && pwd)
. "$tests/compare/build.sh"
build_comparer
build_second "$tests"
build_compare
run "$built/compare" "${1:-1}" "${2:-1000000}" ${3:+"$3"}
