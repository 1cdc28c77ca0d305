# How the comparison is built: read by `run` beside this file and by tests/speed/run. Whoever reads it
# sets `subject` (the word before each message) and calls the functions below.

oracle=$(cd -- "$(dirname -- "${BASH_SOURCE[0]}")" && pwd -P)
root=$(cd -- "$oracle/../.." && pwd -P)
out=$root/target/oracle
library=$root/target/staticlib/libcobra.a

skip() { echo "$subject: skipped: $1"; exit 77; }
fail() { echo "$subject: $1" >&2; exit 1; }

# newer FILE PATH..: FILE is missing, or something in the paths is newer than it
newer() { [ ! -e "$1" ] || [ -n "$(find "${@:2}" -newer "$1" -print -quit)" ]; }

# The Rust program stays where it is: the driver reaches it by a link under target/.
need_rust() {
    local source=$root/../shared/docs/src
    [ -d "$source/crates" ] || skip "the Rust program is not there (../shared/docs/src beside the repository)"
    command -v rustc >/dev/null || skip "rustc is not there"
    mkdir -p "$out"
    source=$(cd -- "$source" && pwd -P)
    [ "$(readlink "$out/src" || true)" = "$source" ] ||
        { rm -f "$out/oracle" "$out/sample" "$out/speed"; ln -sfn "$source" "$out/src"; }
}

# The static library, built anew when it is missing or older than the crates.
need_library() {
    [ "$(uname -m)" = x86_64 ] || skip "the static library links into x86-64 programs only"
    "$root/tools/library" || fail "the static library is not there"
}

# The library's calls, one a line. Without nm the names are picked from the file's bytes.
symbols() {
    if command -v nm >/dev/null; then
        nm --defined-only "$library" 2>/dev/null | sed -n 's/^[0-9a-f]* T \(cobra_[a-z0-9_]*\)$/\1/p'
    else
        LC_ALL=C grep -a -o 'cobra_[a-z0-9_]*' "$library"
    fi | sort -u
}

# Two pieces of the Rust that its functions keep to themselves, as they stand there: the list of the fit's columns and the passes
# of recovery. steps.rs counts with them.
cut_pieces() {
    sed -n '/^fn enumerate_basis/,/^}/p' "$out/src/crates/cobra-passes/src/weighted_poly_fit.rs" >"$out/columns.rs"
    sed -n '/^    for dim in 0\.\.k {$/,/^    }$/p' "$out/src/crates/cobra-ir/src/multivar_poly_recovery.rs" >"$out/passes.rs"
}

# build NAME MAIN SOURCE.. -- FLAG..: the program $out/NAME from the file MAIN, unless it is newer than
# MAIN's folder, the Rust program and the other sources
build() {
    local program=$out/$1 main=$2 from=("$oracle" "$(dirname -- "$2")" "$out/src/")
    shift 2
    while [ "$1" != -- ]; do from+=("$1"); shift; done
    shift
    newer "$program" "${from[@]}" || return 0
    rm -f "$program"
    cut_pieces
    rustc --edition 2021 -O --crate-type rlib --crate-name ahash --out-dir "$out" "$oracle/ahash.rs" >&2 ||
        fail "the stand-in for ahash does not compile"
    rustc --edition 2021 -O --crate-type bin --crate-name "$(basename -- "$program")" \
        --extern "ahash=$out/libahash.rlib" -A unexpected_cfgs "$@" -o "$program.new" "$main" >&2 ||
        fail "$(basename -- "$main") does not build"
    mv "$program.new" "$program"
}

# build_with_library NAME MAIN SOURCE.. -- FLAG..: the same with the static library. Each of the library's
# calls is a cfg of its name, by which a driver sees what there is to call.
build_with_library() {
    local flags=(-C "link-arg=$library") symbol
    for symbol in $(symbols); do flags+=(--cfg "$symbol"); done
    local head=("$1" "$2" "$library")
    shift 2
    while [ "$1" != -- ]; do head+=("$1"); shift; done
    build "${head[@]}" "$@" "${flags[@]}"
}
