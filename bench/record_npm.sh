#!/bin/sh
# Records real coverage: NODE_V8_COVERAGE writes one text a run into FOLDER, over RUNS runs of npm's own commands, which need
# no network. A run's text has about half a megabyte.
# usage: bench/record_npm.sh FOLDER RUNS
folder=${1:?usage: bench/record_npm.sh FOLDER RUNS}
runs=${2:?usage: bench/record_npm.sh FOLDER RUNS}
mkdir -p "$folder" || exit 1
project=$(mktemp -d) || exit 1
trap 'rm -rf "$project"' EXIT
printf '{"name": "project", "version": "1.0.0"}\n' >"$project/package.json"
set -- 'help' 'config list' 'ls' 'pkg get name' 'root' 'prefix' 'version' 'bin' 'run' 'explore'
run=0
while [ "$run" -lt "$runs" ]; do
    for words in "$@"; do
        [ "$run" -lt "$runs" ] || break
        # The words of one command are split at their spaces.
        (cd "$project" && NODE_V8_COVERAGE="$folder" npm $words </dev/null >/dev/null 2>&1)
        run=$((run + 1))
    done
done
