#!/bin/sh
# Proves and builds the library of the C boundary, as target/staticlib/libc_doors.a.
set -eu
cd "$(dirname "$0")/.."
(cd crates/c_doors_c && rt lib)
mkdir -p target/staticlib
cp crates/c_doors_c/out/libc_doors_c.a target/staticlib/libc_doors.a
