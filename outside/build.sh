# Sourced by compare and bench: builds the static library, the C object for its memory, and the programs of this folder.
#
# MARKBOOK_LIB_DIR   the folder that has libffi.a in it; where it is set, the library is not built
# MARKBOOK_HEAP_C    the C file, object or archive through which the library asks for memory; the toolchain's where it is not set
# MARKBOOK_TARGET    where all that is built goes; target/ of this folder where it is not set

# The toolchain's folder is that of the command rt, where RATTLE_HOME does not say another.
toolchain=${RATTLE_HOME:-$(dirname "$(dirname "$(readlink -f "$(command -v rt)")")")}

outside=$(cd "$(dirname "${BASH_SOURCE[0]}")" && pwd)
repository=$(dirname "$outside")
target=${MARKBOOK_TARGET:-$outside/target}
heap_c=${MARKBOOK_HEAP_C:-}
if [ -z "$heap_c" ]; then
    heap_c=$toolchain/c/liblibc_c.a
fi

build() {
    mkdir -p "$target"
    target=$(realpath "$target")
    if [ -z "${MARKBOOK_LIB_DIR:-}" ]; then
        (cd "$repository/crates/ffi" && rt lib) >&2
        MARKBOOK_LIB_DIR=$repository/crates/ffi/out
    fi
    if [ ! -f "$heap_c" ]; then
        echo "nothing for the heap at '$heap_c': set MARKBOOK_HEAP_C or RATTLE_HOME" >&2
        exit 2
    fi
    MARKBOOK_LIB_DIR=$(realpath "$MARKBOOK_LIB_DIR")
    MARKBOOK_HEAP_O=$(realpath "$heap_c")
    if [[ $heap_c == *.c ]]; then
        MARKBOOK_HEAP_O=$target/heap.o
        "${CC:-cc}" -O2 -fPIC -c -o "$MARKBOOK_HEAP_O" "$heap_c"
    fi
    export MARKBOOK_LIB_DIR MARKBOOK_HEAP_O
    (cd "$outside" && cargo build --release --offline --quiet -j "${MARKBOOK_JOBS:-1}" --target-dir "$target")
}
