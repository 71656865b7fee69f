#!/usr/bin/env bash
# Runs sessions over a generated log of 16 processes and 20,000 events, as one batch and as 100
# batches, and prints times, and then look-ups: of the formula whose rows are kept and of one with
# an operator, and the same where no rows are kept. It works on a scratch copy of the crates, where
# the program is proved and built as the product is; the best of a line's runs counts. Since the
# counter of steps takes no bytes, the look-ups come by a copy whose counter has some, and that is
# tried in place of proved: no times there. The look-ups take some six minutes with kept rows, and
# as many without; the proof takes what is not kept of all crates below.
set -eo pipefail
here=$(cd "$(dirname "$0")" && pwd)
. "$here/../scratch.sh"
scratch_crates $(crates_below session_rows trace_gen)
sed -i '/^session_rows:/s/$/ trace_gen anyhow/' "$scratch/crates.txt"
cd "$scratch/crates/session_rows"
rm -r stdin stdout src/case.rt src/log.rt src/reading.rt src/running.rt src/telling.rt src/verdict.rt
cp "$here/main.txt" src/main.rt
# In the proof the counter's ledger is the one that the blank names.
rm -r proofs/verdict
mkdir -p proofs/measured
cat > proofs/measured/Invariants.antt <<'END'
use Rattle.session_rows.proofs.measured.Given as goal

abbrev pub ghosts-run : goal.ghosts-run
ghosts-run g a = record { name = a.blank.name; parts = a.blank.parts }
END
rt run > /dev/null
./out/session_rows | sed 's/, 0 look-ups//'

# From here on a counter counts, and one run a line tells what it counted.
steps=$scratch/crates/pota_base/src/steps.rt
sed -i 's/^    share: Share<L>,$/    share: Share<L>,\n    count: u64,/
    s/Steps { book, share }/Steps { book, share, count: 0 }/
    s/^        self.book.add(&mut self.share, 1);$/&\n        self.count = self.count.wrapping_add(1);/' "$steps"
cat >> "$steps" <<'END'

impl<L: Ledger> Steps<L> {
    pub fn count(&self) -> u64 {
        self.count
    }
}
END
sed -i 's/^const RUNS: u32 = .*/const RUNS: u32 = 1;/; s/in \[1, 4\]/in [1]/
    s/^    0$/    steps.count()/' src/main.rt

# Prints the formulas and the look-ups of each line.
look_ups() {
    rt try --seconds 1200 | sed -n '/ & /p; s/: [0-9]* us,/:/p'
}
echo 'look-ups, rows kept'
look_ups
floors=$scratch/crates/conjunctions/src/floors.rt
sed -i 's/^    match before {$/    match before.filter(|_| false) {/' "$floors"
grep -q 'match before.filter' "$floors"
echo 'look-ups, no rows kept'
look_ups
