#!/usr/bin/env bash
# Runs the systems beside this file and asks pota of each run:
#
#     examples/systems/run.sh N [--kill] [FOLDER]
#
# makes N runs of each system with its planted bug and N of its mended form, and prints of each how
# many runs show the bad state in the order in which their events were logged, and how many in some
# order, as pota answers. With --kill a client or participant is killed in each run, and begun again
# in half of them. All sockets are on 127.0.0.1, and a run ends after a fifth of a second. The logs
# are kept in FOLDER, if one is given, which must not exist.
#
# The program is the one that POTA names, or else crates/pota/out/pota, where `rt run` and `rt ci`
# leave it. With --kill the torn logs of a run go through the program that POTA_LOG names, or else
# crates/pota_log/out/pota_log.
here=$(cd "$(dirname "$0")" && pwd)
pota=${POTA:-$here/../../crates/pota/out/pota}
pota_log=${POTA_LOG:-$here/../../crates/pota_log/out/pota_log}
export PYTHONDONTWRITEBYTECODE=1

usage() {
    sed -n '2,/^[^#]/s/^# \{0,1\}//p' "$0" >&2
    exit 2
}

[[ ${1:-} =~ ^[1-9][0-9]{0,3}$ ]] || usage
runs=$1
shift
kill=()
[ "${1:-}" = --kill ] && { kill=(--kill); shift; }
[ $# -le 1 ] || usage
needed=("$pota")
[ ${#kill[@]} -eq 0 ] || needed+=("$pota_log")
for program in "${needed[@]}"; do
    if ! [ -x "$program" ]; then
        echo "run.sh: there is no program $program: let POTA or POTA_LOG name it, or build it (README)" >&2
        exit 2
    fi
done
if [ $# -eq 1 ]; then
    room=$1
    mkdir "$room" || exit 2
else
    room=$(mktemp -d)
    trap 'rm -rf "$room"' EXIT
fi

# Asks the question of the logs of a run. A process that was killed leaves a torn log, without its
# `end` line and maybe with half a line: `pota_log --torn` takes what is whole of it, and how many
# events it leaves out of each process is kept beside the logs.
ask() {
    if [ ${#kill[@]} -eq 0 ]; then
        cat "$1"/*.log | "$pota" check --merged "$2"
    else
        cat "$1"/*.log | "$pota_log" --merged --torn 2> "$1/left_out" | "$pota" check "$2"
    fi
}

# Prints the row of the table for one system in one form.
row() {
    local system=$1 form=$2 shown=0 found=0 run question logged answer
    question=$(python3 "$here/$system.py" question) || return 1
    python3 "$here/$system.py" "$form" "$room/$system-$form" --runs "$runs" "${kill[@]}" || return 1
    for run in "$room/$system-$form"/*; do
        logged=$(cat "$run/order_shows")
        [ "$logged" = bad ] && shown=$((shown + 1))
        ask "$run" "$question" > "$run/report"
        answer=$?
        case $answer in
            0) found=$((found + 1)) ;;
            1) ;;
            *) echo "run.sh: no answer of $run" >&2; return 1 ;;
        esac
        if [ "$answer $logged ${#kill[@]}" = "1 bad 0" ]; then
            echo "run.sh: the logged order of $run has the bad state, and pota finds it in none" >&2
            return 1
        fi
    done
    printf '%-8s %-8s %6d %14d %12d\n' "$system" "$form" "$runs" "$shown" "$found"
}

printf '%-8s %-8s %6s %14s %12s\n' system form runs 'logged order' 'some order'
for system in lock commit; do
    for form in planted mended; do
        row $system $form || exit 1
    done
done
