#!/bin/sh
# Runs each example of this folder, compares what it prints and its status, and judges its account.
# NAME.account is what the program prints of NAME.script with the words in NAME.words, or else with `order first`.
# NAME.OTHER.account is what it prints of the same script with the words in NAME.OTHER.words. The status is 3 where
# the account has a line that begins with `stuck`, and else 0.
# usage: check.sh [CRL], where CRL is the program, as `rt run` leaves it in crates/crl/out.
here=$(cd "$(dirname "$0")" && pwd) || exit 1
crl=${1:-$here/../crates/crl/out/crl}
if [ ! -x "$crl" ]; then
    echo "no program at $crl: build it with 'rt run -- order first </dev/null' in crates/crl" >&2
    exit 1
fi
seen=$(mktemp) || exit 1
trap 'rm -f "$seen"' EXIT
failed=0
for account in "$here"/*.account; do
    name=$(basename "$account" .account)
    script=$here/${name%%.*}.script
    words="order first"
    if [ -f "$here/$name.words" ]; then
        words=$(cat "$here/$name.words")
    fi
    wanted=0
    if grep -q '^stuck ' "$account"; then
        wanted=3
    fi
    set -f # the shell parts the words, and doesn't take `*` for names of files
    "$crl" $words <"$script" >"$seen"
    status=$?
    set +f
    nodes=$(sed -n 's/^nodes //p' "$script")
    judged=$("$crl" check "$nodes" <"$account")
    if [ "$status" -eq "$wanted" ] && [ "$judged" = legal ] && cmp -s "$seen" "$account"; then
        echo "ok      $name: $words, status $status"
    else
        echo "FAILED  $name: $words, status $status, check $nodes: $judged"
        diff "$account" "$seen" | cut -c1-200
        failed=1
    fi
done
for script in "$here"/*.script; do
    if [ ! -f "${script%.script}.account" ]; then
        echo "FAILED  $(basename "$script") has no account"
        failed=1
    fi
done
exit "$failed"
