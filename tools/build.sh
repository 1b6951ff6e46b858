#!/usr/bin/env bash
# Proves and builds what is used from outside Rattle, and puts it where the documents and the bindings look for it:
#
#     bash tools/build.sh report      target/bin/report, the program
#     bash tools/build.sh lca         target/staticlib/liblca.a, the library for C and Rust
#     bash tools/build.sh             both
set -euo pipefail
cd "$(dirname "$0")/.."

# Copies what `rt` made to a place below target/.
place() { # MADE FOLDER
    mkdir -p "target/$2"
    cp "$1" "target/$2/"
    echo "made target/$2/$(basename "$1")"
}

[ "$#" -gt 0 ] || set -- report lca
for name in "$@"; do
    case $name in
    report)
        (cd crates/report && rt run </dev/null >/dev/null)
        place crates/report/out/report bin
        ;;
    lca)
        (cd crates/lca && rt lib)
        place crates/lca/out/liblca.a staticlib
        ;;
    *)
        echo "tools/build.sh: $name is neither report nor lca" >&2
        exit 1
        ;;
    esac
done
