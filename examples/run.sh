#!/bin/sh
# Runs each example with the program, and compares what it prints with the replies beside it, as the gate does.
here=$(cd "$(dirname "$0")" && pwd) || exit 1
failed=0
for text in "$here"/*.txt; do
    name=$(basename "$text" .txt)
    if "$here/../moo" apply :memory: - < "$text" | cmp -s - "$here/$name.replies"; then
        echo "$name: answered as written"
    else
        echo "$name: answered otherwise"
        failed=1
    fi
done
exit $failed
