#!/bin/sh
# Builds the library and the C client, runs the scripts of the bench program and of the vectors program on words and on
# packed memories, and compares what the client prints with what these programs print; then the refusals.
#   c/run.sh [SCRIPT EXPECTED]    in place of those of crates/bench
set -eu

here=$(CDPATH='' cd "$(dirname "$0")" && pwd)
root=${here%/*}
script=${1-$root/crates/bench/stdin}
expected=${2-$root/crates/bench/stdout}
vectors=$root/crates/vectors
out=$root/target/c
archive=$root/target/staticlib/libcabinet.a
mkdir -p "$out" "${archive%/*}"

passed=0
failed=0

verdict() {
    echo "c client: $passed passed, $failed failed"
    [ "$failed" -eq 0 ] || exit 1
}

# Runs a build step, and ends with what it said if it fails.
build() {
    if ! "$@" >"$out/build.log" 2>&1; then
        cat "$out/build.log"
        failed=$((failed + 1))
        verdict
    fi
}

# Runs the client and compares what it prints: run WHAT INPUT EXPECTED
run() {
    if "$out/client" "$1" <"$2" >"$out/$1.out" && cmp "$out/$1.out" "$3"; then
        passed=$((passed + 1))
    else
        echo "c client: $1 failed: see $out/$1.out"
        failed=$((failed + 1))
    fi
}

# Builds the entries of the crate cabinet_c, which C links as libcabinet.a.
library() { (cd "$root/crates/cabinet_c" && rt lib && cp out/libcabinet_c.a "$archive"); }

build library
build gcc -std=c99 -Wall -Wextra -Werror -O2 -I "$here" "$here/client.c" "$archive" -o "$out/client"
run words "$script" "$expected"
run packed "$script" "$expected"
run blocks-words "$vectors/stdin" "$vectors/stdout"
run blocks-packed "$vectors/stdin" "$vectors/stdout"
run refusals /dev/null "$here/refusals.expected"
verdict
