#!/bin/sh
# A session on a file: a world is made, changed, hit by a power failure in the middle of a text, checked, and looked at.
#
#   MOO=crates/moo/out/moo sh examples/session.sh
#
# It works in the present folder, on world.db.
: "${MOO:?the program}"

echo '$ moo init world.db'
"$MOO" init world.db || exit

echo '$ moo apply world.db -'
"$MOO" apply world.db - <<'BATCH' || exit
batch as #3
create(#1)
set(#4, "name", "Lantern")
add_property(#4, "light", 1, {#3, "rc"})
end
BATCH

echo '# batches without an end, and kill -9 in the middle of them'
mkfifo pipe || exit
"$MOO" apply world.db - <pipe >replies &
server=$!
(
    number=1
    while echo "batch as #3 at $number" && echo "set(#4, \"light\", $number)" && echo end; do
        number=$((number + 1))
    done
) >pipe 2>/dev/null &
writer=$!
while kill -0 "$server" 2>/dev/null && ! grep -q '^accepted 20$' replies; do
    sleep 0.01
done
kill -9 "$server"
wait "$server" "$writer" 2>/dev/null
acknowledged=$(awk '/^accepted / { number = $2 } /^end$/ { whole = number } END { print whole }' replies)

echo '$ moo check world.db'
"$MOO" check world.db >checked || exit
found=$(cut -d ' ' -f 3 checked)
if [ "$found" = "$acknowledged" ] || [ "$found" = $((acknowledged + 1)) ]; then
    echo "# every acknowledged batch is there, and at most one more"
else
    echo "# LOST: $acknowledged acknowledged, $found found"
    exit 1
fi

echo '$ moo dump world.db | grep "#4"'
"$MOO" dump world.db | grep '#4' | sed "s/, $((found - 1))}/, N}/"
