# Sourced by ./build-for and by the tests, which set root, the repository: the kit's own clang, the rows of the table, and a module's text lowered for one of them.

kit=$(dirname "$(dirname "$(readlink -f "$(command -v rt)")")")
tools=$kit/toolchain

# The words that the kit gives its clang for every processor; build-for demands that it gives no others.
kit_words="-mllvm -no-trap-after-noreturn -ffunction-sections -fdata-sections -mllvm -trap-unreachable -mllvm -no-x86-call-frame-opt
    -mllvm -disable-machine-licm -mllvm -disable-postra-machine-licm -mllvm -sink-common-insts=false
    --no-default-config -no-canonical-prefixes -fintegrated-cc1 -fno-crash-diagnostics -Werror"

# The names of the table, or a field of a row: 2 is the triple, 3 the optimisation, 4 all words for clang, the triple among them.
target_names() { awk '!/^#/ && NF { print $1 }' "$root/targets/table"; }
target_field() {
    awk -v name="$1" -v field="$2" '$1 == name {
        if (field < 4) { print $field; exit }
        line = "--target=" $2
        for (i = 4; i <= NF; i++) line = line " " $i
        print line
    }' "$root/targets/table"
}

# Lowers the text hervantyu.ll in the folder $2 for the target $1, with the words that the kit gives its clang beside the processor's and the further arguments,
# and makes the archive of it: hervantyu.o, libhervantyu.a, and hervantyu.su with the frame of each function.
lower() {
    row=$1 folder=$2
    shift 2
    # Unquoted: one word for each of clang's.
    (cd "$folder" && "$tools/bin/clang" $(target_field "$row" 4) "$@" $kit_words "$(target_field "$row" 3)" -fstack-usage \
        -c -x ir hervantyu.ll -o hervantyu.o && rm -f libhervantyu.a && "$tools/bin/llvm-ar" rcsD libhervantyu.a hervantyu.o)
}
