#!/bin/sh
# The least program: it makes an inn in one batch, reads it, is refused, and follows what changes.
#
#     sh inn.sh URL TOKEN
#
# It needs curl and sed alone.
url=$1 token=$2

asked() {
    curl -s -H "Authorization: Bearer $token" "$@"
}

made=$(asked "${url}api/batch" -d '{"calls":["$inn = create(#1)","set($inn, \"name\", \"The Inn\")","$owner = get($inn, \"owner\")","add_property($inn, \"beds\", 3, {$owner, \"r\"})"]}')
inn=$(echo "$made" | sed 's/.*"inn":"\(#[0-9]*\)".*/\1/')
echo "made $inn"

asked "${url}api/ask" -d "{\"calls\":[\"get($inn, \\\"name\\\")\",\"get($inn, \\\"beds\\\")\",\"get($inn, \\\"owner\\\")\"]}" |
    sed 's/{"answers":\["\\"\(.*\)\\"","\([0-9]*\)","\(#[0-9]*\)"\].*/\1 has \2 beds and \3 owns it/'
echo

asked "${url}api/batch" -d '{"calls":["set(#3, \"name\", \"Ada'\''s\")"]}' |
    sed 's/{"call":\([0-9]*\),"error":"\([A-Z_]*\)".*/refused: \2 at call \1/'
echo

seq=$(asked "${url}api/seq" | sed 's/[^0-9]//g')
asked "${url}api/batch" -d "{\"calls\":[\"set($inn, \\\"beds\\\", 4)\"]}" >/dev/null
asked "${url}api/since/$seq?wait=20" | sed 's/{"objects":\[\(.*\)\].*/changed: \1/; s/"//g; s/,/, /g'
echo
