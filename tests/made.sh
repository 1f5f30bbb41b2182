# Sourced by everything that uses what is proved and built: where the archive for x86-64 and the programs of the repository $1 lie, and how each is made. rt makes a
# program only where it runs it as well. Both are for every x86-64. What rt says goes to standard error.
made_archive() { echo "$1/crates/hervantyu/out/libhervantyu.a"; }
make_archive() { (cd "$1/crates/hervantyu" && rt lib --cpu x86-64) >&2; }
made_program() { echo "$1/crates/$2/out/$2"; }
make_program() { (cd "$1/crates/$2" && rt run --cpu x86-64 </dev/null >/dev/null); }

# How many checks of the prover run at once: as many as there are processors, with 3 GB of memory for each.
checks_at_once() {
    awk -v most="$(nproc)" '/^MemAvailable:/ { n = int($2 / 3000000) } END { print n < 1 ? 1 : n < most ? n : most }' /proc/meminfo
}
