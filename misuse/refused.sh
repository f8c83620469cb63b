#!/bin/sh
# A state of the unit is a value that is moved: `sound` must be proved, and the compiler must refuse each other snippet
# with the error that stands beside its name. Each is a crate of its own, over copies of ours in a folder that goes again.
set -u
root=$(cd "$(dirname "$0")/.." && pwd -P) || exit 2
work=$(mktemp -d) || exit 2
trap 'rm -rf "$work"' EXIT
bad=0
# the unit, and what it is built on
crates="memory lists tables replies values headers blocks families transfers block_requests unit"

mkdir "$work/crates" || exit 2
: >"$work/crates.txt"
for name in $crates; do
    grep "^$name:" "$root/crates.txt" >>"$work/crates.txt" || exit 2
    mkdir "$work/crates/$name" || exit 2
    for part in src specs proofs; do
        if [ -d "$root/crates/$name/$part" ]; then
            cp -R "$root/crates/$name/$part" "$work/crates/$name/$part" || exit 2
        fi
    done
done

# Whether a proof was tried after all: the crates below say `logic=` of themselves before the snippet's error, and it says none.
said_after_error() { # LOG
    sed -n '/^src\/lib\.rt:.*error\[/,$p' "$1" | grep -q '^logic='
}

try() { # NAME EXPECTED
    mkdir -p "$work/crates/$1/src"
    cp "$root/misuse/$1.rt.txt" "$work/crates/$1/src/lib.rt"
    echo "$1: $crates" >>"$work/crates.txt"
    (cd "$work/crates/$1" && rt check) >"$work/$1.log" 2>&1
    status=$?
    if [ "$2" = proved ]; then
        if [ $status -eq 0 ] && sed -n '$p' "$work/$1.log" | grep -q '^logic=proved'; then
            echo "$1: proved, as it must be"
            return
        fi
    elif [ $status -eq 1 ] && grep -q "^src/lib\.rt:.*error\[$2\]" "$work/$1.log" && ! said_after_error "$work/$1.log"; then
        echo "$1: refused, as it must be: $(grep -o '^src/lib\.rt:.*error\[.*' "$work/$1.log" | sed -n -e 's/^.*error\[/error[/' -e 's/: note: .*//' -e 's/: help: .*//' -e 1p)"
        return
    fi
    echo "$1: NOT AS IT MUST BE (status $status)"
    cat "$work/$1.log"
    bad=1
}

try sound proved
try resume_of_editing unknown-method
try set_after_abandon borrow-e0382
try forgotten_after_refused_opening unsatisfied-bound
exit $bad
