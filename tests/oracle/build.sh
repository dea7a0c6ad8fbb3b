#!/bin/sh
# Builds the oracle: coupe's own refiners, unchanged, behind a driver that reads one case a line (src/main.rs).
# COUPE names the folder coupe/src of commit 30dce98c25. Ends with 0 when built, 3 when coupe is not there, 4 when a Debian package is not there.
# Where COUPE is not set, a copy in ../shared/docs/src beside the repository is taken.
# What it makes stands in target/ beside this file: coupe's files in target/coupe, the program target/release/oracle.
set -eu
here=$(cd "$(dirname "$0")" && pwd)
near=$here/../../../shared/docs/src/coupe/src
if [ -z "${COUPE:-}" ] && [ -d "$near" ]; then COUPE=$near; fi
if [ -n "${COUPE:-}" ] && [ -f "$COUPE/algorithms/fiduccia_mattheyses.rs" ]; then
    COUPE=$(cd "$COUPE" && pwd)
else
    cat >&2 <<'TEXT'
oracle: coupe's source is not there. Get it and say where its src folder is:
    git clone https://github.com/LIHPC-Computational-Geometry/coupe
    git -C coupe checkout 30dce98c25
    COUPE=$PWD/coupe/src tests/oracle/build.sh
TEXT
    exit 3
fi
cd "$here"
for crate in rayon itertools num-traits tracing; do
    if ! ls -d /usr/share/cargo/registry/"$crate"-[0-9]* >/dev/null 2>&1; then
        cat >&2 <<'TEXT'
oracle: a crate of Debian's is not there. As root:
    apt-get install -y --no-install-recommends librust-rayon-dev librust-itertools-dev librust-num-traits-dev librust-tracing-dev
TEXT
        exit 4
    fi
done

copy=target/coupe.new
rm -rf "$copy"
mkdir -p "$copy/topology"
for file in algorithms/fiduccia_mattheyses algorithms/kernighan_lin algorithms/arc_swap imbalance defer work_share; do
    cp "$COUPE/$file.rs" "$copy/$(basename "$file").rs"
done
cp "$COUPE/topology/mod.rs" "$COUPE/topology/sprs.rs" "$copy/topology/"

# Partition, partial_cmp and as_atomic out of lib.rs; Error out of algorithms.rs.
sed -n '/^use std::cmp::Ordering;/,$p' "$COUPE/lib.rs" >"$copy/lib_tail.rs"
sed -n '/^use std::fmt;/p; /^\/\/\/ Common errors/,/^impl std::error::Error/p' "$COUPE/algorithms.rs" >"$copy/error.rs"

# FM with an ordered set. fm_btree: a plain BTreeSet, two lines differ. fm_low: a set that iterates downwards, so that
# equals go to the lowest vertex; one line, the import, differs.
sed 's/\bHashSet\b/BTreeSet/' "$copy/fiduccia_mattheyses.rs" >"$copy/fm_btree.rs"
sed 's/^use std::collections::HashSet;/use crate::descending::Descending as HashSet;/' \
    "$copy/fiduccia_mattheyses.rs" >"$copy/fm_low.rs"
differing() { diff "$copy/fiduccia_mattheyses.rs" "$copy/$1.rs" | grep -c '^>' || true; }
if [ "$(differing fm_btree)" != 2 ] || [ "$(differing fm_low)" != 1 ]; then
    echo "oracle: coupe's fiduccia_mattheyses.rs is not that of commit 30dce98c25" >&2
    exit 3
fi

# Files that are the same keep their dates, so that nothing is compiled again.
if diff -r "$copy" target/coupe >/dev/null 2>&1; then
    rm -rf "$copy"
else
    rm -rf target/coupe
    mv "$copy" target/coupe
fi
cargo build --offline --quiet --release
