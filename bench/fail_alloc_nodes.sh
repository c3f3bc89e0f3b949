#!/bin/sh
# Runs a test of nodes that are driven by hand with each of its allocations refused in turn. In that test an act that wants
# memory is done again, and what is told at the end has to be the same: so it has to pass each time. It wants a C compiler (cc).
# usage: fail_alloc_nodes.sh [TESTS], where TESTS is the program of the tests, as `rt test` leaves it in crates/crl_node_tests/out.
top=$(cd "$(dirname "$0")/.." && pwd) || exit 1
tests=${1:-$top/crates/crl_node_tests/out/crl_node_tests_tests}
if [ ! -x "$tests" ]; then
    echo "no program at $tests: run \`rt test\` in crates/crl_node_tests" >&2
    exit 1
fi
work=$(mktemp -d) || exit 1
trap 'rm -rf "$work"' EXIT
cc -O1 -shared -fPIC -o "$work/refuse.so" "$top/bench/refuse.c" -ldl || exit 1

number=1
failed=0
while :; do
    env LD_PRELOAD="$work/refuse.so" REFUSE="$number" "$tests" refused::a_refused_act_is_done_again \
        >"$work/out" 2>"$work/err"
    status=$?
    if [ "$status" -ne 0 ] || ! grep -q "test result: ok" "$work/out"; then
        failed=$((failed + 1))
        echo "FAILED  allocation $number refused, status $status"
        head -c 300 "$work/out" "$work/err"
    fi
    if ! grep -qx refused "$work/err"; then
        break
    fi
    number=$((number + 1))
done
echo "$((number - 1)) allocations, each refused once: $failed runs failed"
[ "$failed" -eq 0 ] && [ "$number" -gt 1 ] && echo "ok"
[ "$failed" -eq 0 ] && [ "$number" -gt 1 ]
