#!/bin/sh
# Serves the requests of each example, and compares the replies. Prints one line an example, and fails where a reply differs.
# The program is the first word, and without one that which ./stateflow has built.
here=$(CDPATH= cd -- "$(dirname -- "$0")/.." && pwd) || exit 1
program=${1:-$here/crates/stateflow/out/stateflow}
if [ ! -x "$program" ]; then
    echo "run_examples: there is no program at $program: ./stateflow builds it" >&2
    exit 2
fi
failed=0
for requests in "$here"/examples/*/requests.jsonl; do
    folder=$(dirname "$requests")
    name=$(basename "$folder")
    if "$program" run "$folder/$name.py" --batch 1 <"$requests" | cmp -s - "$folder/replies.jsonl"; then
        echo "ok: $name"
    else
        echo "FAILED: $name"
        failed=1
    fi
done
exit $failed
