#!/bin/sh
# Proves and builds the library of the C boundary, links host/deep.c with it, and runs that: the deepest data within 2 MiB of
# stack, and the times of the soundness check and of put. The last line is 'N passed, M failed'.
set -eu
cd "$(dirname "$0")/.."
host/library.sh
mkdir -p target/host
"${CC:-cc}" -std=c11 -O2 -Wall -Wextra -Werror -Iinclude host/deep.c target/staticlib/libc_doors.a -lpthread -o target/host/deep
target/host/deep
