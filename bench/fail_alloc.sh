#!/bin/sh
# Runs each command of the program on a small input with each of its allocations refused in turn: once with that
# one alone refused, and once with all from that one on. A run has to end with status 6 and print nothing, or else
# to print what it prints with ample memory, with the same status. It wants a C compiler (cc) and a program that
# takes malloc and realloc from a shared C library, as `rt run` builds it.
# usage: fail_alloc.sh [CRL], where CRL is the program, as `rt run` leaves it in crates/crl/out.
top=$(cd "$(dirname "$0")/.." && pwd) || exit 1
crl=${1:-$top/crates/crl/out/crl}
if [ ! -x "$crl" ]; then
    echo "no program at $crl: README.md says how to build it" >&2
    exit 1
fi
work=$(mktemp -d) || exit 1
trap 'rm -rf "$work"' EXIT
cc -O1 -shared -fPIC -o "$work/refuse.so" "$top/bench/refuse.c" -ldl || exit 1

failed=0

# One run with an allocation refused: is it right? Sets `reached`, whether there was such an allocation.
run_once() { # MODE NUMBER INPUT WORDS...
    mode=$1 number=$2 input=$3
    shift 3
    if [ "$mode" = all ]; then
        env LD_PRELOAD="$work/refuse.so" REFUSE="$number" REFUSE_ALL=1 "$crl" "$@" <"$input" >"$work/out" 2>"$work/err"
    else
        env LD_PRELOAD="$work/refuse.so" REFUSE="$number" "$crl" "$@" <"$input" >"$work/out" 2>"$work/err"
    fi
    status=$?
    reached=0
    if [ -s "$work/err" ]; then
        reached=1
    fi
    if [ "$status" -eq 6 ] && [ ! -s "$work/out" ]; then
        refusals=$((refusals + 1))
    elif [ "$status" -ne "$ample" ] || ! cmp -s "$work/out" "$work/wanted"; then
        failed=1
        echo "FAILED  $*: allocation $number refused ($mode), status $status"
        head -c 300 "$work/out" "$work/err"
    fi
}

each_refused() { # INPUT WORDS...
    input=$1
    shift
    "$crl" "$@" <"$input" >"$work/wanted"
    ample=$?
    for mode in one all; do
        number=1
        reached=1
        refusals=0
        while [ "$reached" -eq 1 ]; do
            run_once "$mode" "$number" "$input" "$@"
            number=$((number + 1))
        done
        echo "$mode: $((number - 2)) allocations, $refusals with status 6: $*, status $ample with ample memory"
    done
}

examples=$top/examples
printf '0 create 0:1 4\n0 map 0:1 4\n0 startread 0:1\n0 read 0:1 00000001\n' >"$work/illegal"
printf '0 creat 0:1 4\n' >"$work/bad_account"
printf 'nodes 1\nnode 0\ncrea\n' >"$work/bad_script"
each_refused "$examples/first.script" order first
each_refused "$examples/early.script" order picks '1,1*2'
each_refused "$examples/race.script" order seed 0
each_refused "$examples/deleted.script" order first
each_refused "$examples/broadcast.script" order first
each_refused "$examples/mixed.script" order first
each_refused "$examples/deadlock.script" order first
each_refused "$examples/pieces.script" order picks '0*23,1'
each_refused "$work/bad_script" order first
each_refused "$examples/race.account" check 3
each_refused "$work/illegal" check 1
each_refused "$work/bad_account" check 1
each_refused /dev/null gen 1 2 2 3
each_refused /dev/null summary 1 2 2 3
each_refused /dev/null order picks 1,,2
[ "$failed" -eq 0 ] && echo "ok"
exit "$failed"
