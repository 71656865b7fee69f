#!/usr/bin/env bash
# Prints the time of making a log of 32 processes and 50,000 events. It works on a scratch copy of the crates, where what is timed
# is proved and built.
set -e
here=$(cd "$(dirname "$0")" && pwd)
. "$here/../scratch.sh"
scratch_crates $(crates_below trace_gen)
mkdir -p "$scratch/crates/made_logs/src"
echo "made_logs: pota_base event_log trace_gen" >> "$scratch/crates.txt"
cp "$here/main.txt" "$scratch/crates/made_logs/src/main.rt"
cd "$scratch/crates/made_logs"
rt run 2>/dev/null
