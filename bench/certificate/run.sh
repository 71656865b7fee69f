#!/usr/bin/env bash
# Prints the size of a certificate, and the times and peaks of `pota check`, of `pota certify` and of `pota_verify`, for an `EF` of a
# conjunction over made logs of 16 processes and 20,000 events and of 32 and 50,000. The logs are made on a scratch copy of the
# crates, where the program that writes them is proved and built.
#
# bench/certificate/run.sh [POTA POTA_VERIFY]
#
# The programs are crates/pota/out/pota and crates/pota_verify/out/pota_verify where they are left out, which `rt run` in
# crates/pota and crates/pota_verify makes.
set -e
here=$(cd "$(dirname "$0")" && pwd)
pota=$(realpath -m "${1:-$here/../../crates/pota/out/pota}")
verify=$(realpath -m "${2:-$here/../../crates/pota_verify/out/pota_verify}")
. "$here/../scratch.sh"
formula='EF (P1.n >= 1000 & P16.n >= 1000)'
scratch_crates $(crates_below trace_gen log_writing)
mkdir -p "$scratch/crates/made_log/src"
echo "made_log: pota_base log_writing trace_gen" >> "$scratch/crates.txt"

# made_log PROCESSES EVENTS
made_log() {
    sed "s/^\(const PROCESSES: u32 =\) .*/\1 $1;/; s/^\(const EVENTS: u32 =\) .*/\1 $2;/" "$here/main.txt" > src/main.rt
    rt run 2> /dev/null
}

# timed NAME FILE WORD ..
# Runs the words on the file three times; what they print goes to $scratch/NAME.
timed() {
    local name=$1 file=$2
    shift 2
    for _ in 1 2 3; do
        /usr/bin/time -f "$name: %e s, processor: %U s and %S s of the system, peak memory: %M KiB" \
            "$@" < "$file" > "$scratch/$name" || [ $? -eq 1 ]
    done
}

cd "$scratch/crates/made_log"
for size in '16 20000' '32 50000'; do
    made_log $size > "$scratch/log"
    echo "$formula of $size: log of $(wc -c < "$scratch/log") bytes"
    timed check "$scratch/log" "$pota" check "$formula"
    timed certify "$scratch/log" "$pota" certify "$formula"
    cat "$scratch/log" "$scratch/certify" > "$scratch/both"
    timed verify "$scratch/both" "$verify" "$formula"
    echo "certificate of $(wc -c < "$scratch/certify") bytes and $(wc -l < "$scratch/certify") lines; $(cat "$scratch/verify")"
done
