#!/bin/sh
# Merges a folder of snapshots by GNU parallel: shards are merged side by side, and their files are merged again, which gives
# the bytes of one `gurvoshin merge FOLDER`. With HOSTS (as 'HOSTS=one,two') the shards go to these machines by ssh, which
# have gurvoshin and rsync on their PATH, as this one has rsync; only merged files come back.
# usage: [HOSTS=..] examples/shards/by_parallel.sh FOLDER OUT [SHARDS]
folder=${1:?usage: by_parallel.sh FOLDER OUT [SHARDS]}
out=${2:?usage: by_parallel.sh FOLDER OUT [SHARDS]}
shards=${3:-$(nproc)}
folder=$(CDPATH='' cd -- "$folder" && pwd) || exit 4
room=$(mktemp -d "$folder/../shards.XXXXXX") || exit 4
trap 'rm -rf "$room"' EXIT
mkdir "$room/parts" && started=$(pwd)

# The larger texts first, one to each shard in turn. A second name of a text takes no room; a symbolic link wouldn't be read.
cd "$folder" || exit 4
ls -S | grep '\.json$' | awk -v shards="$shards" -v room="$room" '{ print > (room "/list-" (NR - 1) % shards) }'
for list in "$room"/list-*; do
    shard=$room/${list##*-}
    mkdir "$shard"
    xargs -d '\n' ln -t "$shard" <"$list" 2>/dev/null || xargs -d '\n' cp -t "$shard" <"$list" || exit 4
done

cd "$room" || exit 4
if [ -n "${HOSTS-}" ]; then
    set -- --sshlogin "$HOSTS" --transferfile '{}' --return 'parts/{}.json' --cleanup
else
    set -- --jobs "$shards"
fi
# Status 3 tells that texts were refused, whose lines stand on the error stream; the others are merged.
ls -d [0-9]* | parallel --will-cite "$@" 'mkdir -p parts && gurvoshin merge {} > parts/{}.json || [ $? = 3 ]' || exit 4
gurvoshin merge parts >merged.json || exit $?
cd "$started" && mv "$room/merged.json" "$out"
