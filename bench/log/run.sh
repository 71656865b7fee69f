#!/usr/bin/env bash
# Prints the times of reading and of checking a log apart, and the peak of the memory: of 32 processes and 50,000 events in one
# batch, of the same with a batch behind each event, both with their clocks and with none of them, of a chain and of a cycle of
# 50,000 events without clocks, and of 64 MiB of empty batches. As in the product, a log comes in pieces of 64 KiB, and what a piece
# gives is put into the trace before the next one is read. Then the time and the peak that the program takes for the first of these
# logs, for the same as a two-line log of 32 hosts and 50,000 records and as 32 logs of 1,562 or 1,563 events each, one behind the
# other, and the time that it takes for the texts that cost the most.
# It works on a scratch copy of the crates, where what is timed is proved and built.
#
# It is run as `bench/log/run.sh`, or as `bench/log/run.sh log`, which stops before the program is built.
set -e
here=$(cd "$(dirname "$0")" && pwd)
. "$here/../scratch.sh"
scratch_crates $(crates_below trace_growth log_fitting)
mkdir -p "$scratch/crates/log_times/src"
echo "log_times: $(cut -d: -f1 "$scratch/crates.txt" | tr '\n' ' ')anyhow" >> "$scratch/crates.txt"
cd "$scratch/crates/log_times"
cp "$here/main.txt" src/main.rt

# The clocks are those of Fidge and Mattern; each third event sends to the next process, whose next event receives.
awk 'BEGIN {
    print "pota-log 1"
    line = "procs"
    for (p = 1; p <= 32; p++) line = line " P" p
    print line
    for (p = 1; p <= 32; p++) print "vars P" p " n=0"
    for (event = 0; event < 50000; event++) {
        p = event % 32
        if (event % 3 == 2)
            for (q = 0; q < 32; q++)
                if (clock[(p + 31) % 32, q] > clock[p, q]) clock[p, q] = clock[(p + 31) % 32, q]
        clock[p, p]++
        line = "ev P" p + 1 " " clock[p, 0] + 0
        for (q = 1; q < 32; q++) line = line "," clock[p, q] + 0
        if (event % 3 == 1) line = line " send P" (p + 1) % 32 + 1 " " event
        else if (event % 3 == 2) line = line " recv P" (p + 31) % 32 + 1 " " event - 1
        else line = line " int"
        print line " n=" event
    }
    print "end"
}' > "$scratch/one_batch"

# The log on standard input, with a batch behind each event.
cut_up() { sed '/^ev /a batch'; }

# The log on standard input, in version 2 and without its clocks.
leave_out() { sed -e '1s/1/2/' -e 's/^\(ev [^ ]*\) [^ ]*/\1 ~/'; }

# The log on standard input as a two-line log, each clock with the counts that aren't 0.
as_records() {
    awk '
    $1 == "procs" { for (p = 2; p <= NF; p++) name[p - 1] = $p }
    $1 == "ev" {
        count = split($3, clock, ",")
        text = ""
        for (p = 1; p <= count; p++)
            if (clock[p] > 0) text = text (text == "" ? "" : ", ") "\"" name[p] "\":" clock[p]
        print $2 " {" text "}"
        print $4
    }'
}

# as_sources FILE
# The log as one of each process, one behind the other.
as_sources() {
    for process in $(sed -n '2s/^procs//p' "$1"); do
        head -n 2 "$1"
        grep -E "^(vars|ev) $process " "$1"
        echo end
    done
}

# ring SENT
# A log without clocks whose 50,000 events are a chain. In each of 781 rounds each process receives from the one behind it and
# sends to the one before it, and the last one receives what the first one sent in the round before. The events stand process by
# process, so but for the last process each receipt stands before its send. In the first round the last process receives what the
# first one sent in the round SENT: of the last one, so that the chain is closed to a cycle, or nothing where it is 0.
ring() {
    awk -v sent="$1" 'BEGIN {
        print "pota-log 2"
        line = "procs"
        for (p = 1; p <= 32; p++) line = line " P" p
        print line
        for (p = 1; p <= 32; p++)
            for (round = 1; round <= 781; round++) {
                from = p < 32 ? round : round > 1 ? round - 1 : sent
                print "ev P" p " ~ " (from ? "recv P" p % 32 + 1 " " from : "int")
                if (p == 1 && round == 781)
                    for (more = 0; more < 16; more++) print "ev P1 ~ int"
                print "ev P" p " ~ send P" (p + 30) % 32 + 1 " " round
            }
        print "end"
    }'
}
cut_up < "$scratch/one_batch" > "$scratch/a_batch_an_event"
leave_out < "$scratch/one_batch" > "$scratch/one_batch_without_clocks"
cut_up < "$scratch/one_batch_without_clocks" > "$scratch/a_batch_an_event_without_clocks"
ring 0 > "$scratch/chain"
ring 781 > "$scratch/cycle"
header='pota-log 1\nprocs P\nvars P x=0\n'
(printf "$header"; yes batch | head -n 10999999; echo end) > "$scratch/empty_batches"
rt run > /dev/null < "$scratch/one_batch"
for log in one_batch one_batch_without_clocks a_batch_an_event a_batch_an_event_without_clocks chain cycle empty_batches; do
    echo "$log: $(wc -c < "$scratch/$log") bytes"
    for _ in 1 2 3; do
        /usr/bin/time -f 'peak memory: %M KiB, processor: %U s and %S s of the system' ./out/log_times < "$scratch/$log"
    done
done
[ "$1" != log ] || exit 0

head -c 67108864 /dev/urandom > "$scratch/garbage"
(printf "$header"; head -c 67108800 /dev/zero | tr '\0' a) > "$scratch/one_line"
(printf "$header"; head -c 67108800 /dev/zero | tr '\0' '\n') > "$scratch/line_feeds"
scratch_crates $(crates_below pota | grep -vxFf <(cut -d: -f1 "$scratch/crates.txt"))
cd "$scratch/crates/pota"
rt run > /dev/null 2>&1 < stdin -- check 'EF (P.x = 0 & P.x = 0)' || true

# timed LOG [OPTION]
timed() {
    echo "$1: $(wc -c < "$scratch/$1") bytes"
    for _ in 1 2 3; do
        /usr/bin/time -f 'peak memory: %M KiB, %e s, processor: %U s and %S s of the system' \
            ./out/pota check true $2 < "$scratch/$1" > /dev/null
    done
}
as_records < "$scratch/one_batch" > "$scratch/records"
as_sources "$scratch/one_batch" > "$scratch/sources"
timed one_batch
timed records --vclog
timed sources --merged
for text in garbage one_line line_feeds empty_batches; do
    echo "$text: $(wc -c < "$scratch/$text") bytes"
    time ./out/pota check 'EF (P.x = 0 & P.x = 0)' < "$scratch/$text" || true
done
