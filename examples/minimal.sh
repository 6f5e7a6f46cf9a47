#!/bin/sh
# A LambdaMOO database becomes a world, is changed, and becomes a database again with its programs.
#
#   MOO=crates/moo/out/moo sh examples/minimal.sh
#
# It works in the present folder, on minimal.dump, world.db and new.db. docs/LAMBDAMOO.md shows what it prints.
: "${MOO:?the program}"
here=$(cd "$(dirname "$0")" && pwd) || exit
tools=$here/../tools

echo '$ tools/from_lambdamoo.py examples/minimal.db | tee minimal.dump | moo load world.db -'
"$tools/from_lambdamoo.py" "$here/minimal.db" | tee minimal.dump | "$MOO" load world.db - || exit

echo '$ moo dump world.db | cmp - minimal.dump && cmp minimal.dump examples/minimal.dump && echo the same'
"$MOO" dump world.db | cmp - minimal.dump && cmp minimal.dump "$here/minimal.dump" && echo the same || exit

echo "\$ grep '#8' minimal.dump"
grep '#8' minimal.dump

cat <<'COMMAND'
$ printf 'batch as #3\nset(#8, "name", "oil lamp")\nend\n' | moo apply world.db -
COMMAND
printf 'batch as #3\nset(#8, "name", "oil lamp")\nend\n' | "$MOO" apply world.db - || exit

echo '$ moo dump world.db | tools/to_lambdamoo.py - --programs examples/minimal.db >new.db'
"$MOO" dump world.db | "$tools/to_lambdamoo.py" - --programs "$here/minimal.db" >new.db || exit

echo '$ diff examples/minimal.db new.db'
diff "$here/minimal.db" new.db
[ $? -eq 1 ]
