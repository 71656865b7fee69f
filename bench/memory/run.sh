#!/usr/bin/env bash
# Runs the programs on small logs with their growths of memory refused, one at a time, from the first
# on up to the first run in which nothing was refused. Each time the program must say that it is out
# of memory, with a front of its output written, or do as without refusal.
#
# bench/memory/run.sh [CRATES]
#
# CRATES is the folder crates/ where it is left out. `rt run` in CRATES/pota makes the program
# CRATES/pota/out/pota, and so those of the other two.
set -e
here=$(cd "$(dirname "$0")" && pwd)
crates=${1:-$here/../../crates}
crates=$(cd "$crates" && pwd)
scratch=$(mktemp -d)
trap 'rm -rf "$scratch"' EXIT
cc -O1 -shared -fPIC -o "$scratch/refuse.so" "$here/refuse.c" -ldl
cd "$scratch"

cat > run.log <<'LOG'
pota-log 1
procs P Q
vars P x=0
vars Q y=0
ev P 1,0 send Q 1 x=1
ev P 2,0 int x=2
ev Q 1,1 recv P 1 y=1
ev Q 1,2 send P 2 y=2
ev P 3,2 recv Q 2
end
LOG
sed '6a batch' run.log > batches.log
for process in P Q; do
    head -n 2 run.log
    grep -E "^(vars|ev) $process " run.log
    echo end
done > logs_of_processes
cat > two_line.log <<'LOG'
client {"client":1}
start
server {"server":1,"client":1}
got
LOG

# A run of the program with the growth of this number refused; 0 refuses none.
run() {
    : > mark
    status=0
    REFUSED=$1 REFUSED_MARK=$scratch/mark LD_PRELOAD=$scratch/refuse.so \
        "$crates/$program/out/$program" "${@:3}" < "$2" > written 2> told || status=$?
}

wrong=0
# try STATUS INPUT WORD.., of the program of that name
try() {
    local wanted=$1 log=$2 number=0 refused=0
    echo "$program: out of memory" > no_memory
    run 0 "$log" "${@:3}"
    if [ "$status" != "$wanted" ]; then
        echo "$program ${*:3}: status $status, not $wanted"
        wrong=1
        return
    fi
    cp written whole
    while :; do
        number=$((number + 1))
        run $number "$log" "${@:3}"
        if [ ! -s mark ]; then
            break
        fi
        if [ "$status" = 7 ]; then
            refused=$((refused + 1))
            if cmp -s told no_memory && cmp -s -n "$(stat -c %s written)" written whole; then
                continue
            fi
        elif [ "$status" = "$wanted" ] && cmp -s written whole && [ ! -s told ]; then
            continue
        fi
        echo "$program ${*:3}: growth $number refused: status $status, $(head -n 1 told)"
        wrong=1
    done
    echo "$program ${*:3}: $((number - 1)) growths refused, $refused of them told"
}

program=pota
try 1 run.log check 'AG empty(P,Q)' --slice --witness
try 0 run.log check 'empty(P,Q)' --slice --witness
try 1 run.log check '(P.x = 1 & Q.y = 2) | (P.x = 2 & Q.y = 1)' --slice --witness
try 0 batches.log check 'EF (P.x = 2 & Q.y = 1)' --each-batch
try 1 batches.log check 'EG empty(P,Q)' --witness --each-batch
try 0 two_line.log check 'EF (client.n = 1 & server.n = 0)' --vclog --slice --witness
try 0 logs_of_processes check 'EF (P.x = 2 & Q.y = 1)' --merged --slice --witness
try 0 run.log bench 'EF (P3.seen = 1 & P2.n = 0)' --seed 42 --procs 3 --events 6
try 1 run.log certify 'AG empty(P,Q)'
{ cat run.log; cat whole; } > verified
{ cat run.log; run 0 run.log check 'EG P.x <= 2' --slice --witness; cat written; } > viewed
program=pota_verify
try 0 verified 'AG empty(P,Q)'
program=pota_view
try 0 viewed text
try 0 viewed svg
exit $wrong
