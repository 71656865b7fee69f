#!/usr/bin/env bash
# Settles all rows of generated systems, and prints times and look-ups: by `least`, and by 1, 2 and 4 workers. It works on a scratch
# copy of the crates, where the program is proved and built as the product is; the best of a line's repetitions counts. Then comes
# the peak of its memory. Since the counter of steps takes no bytes, the look-ups come last, by a copy whose counter has some, and
# that is tried in place of proved: the times there mean nothing.
set -e
here=$(cd "$(dirname "$0")" && pwd)
. "$here/../scratch.sh"
below='pota_base pull_system pull_fans least_cut raise_machine process_claims bound_table slice_workers'
scratch_crates $below
mkdir -p "$scratch/crates/settle_rows/src"
echo "settle_rows: $below anyhow" >> "$scratch/crates.txt"
cp "$here/main.txt" "$scratch/crates/settle_rows/src/main.rt"
cd "$scratch/crates/settle_rows"
# In the proofs of both callers the counter's ledger is the one that the blank names.
for call in run:settled_sum run_least:least_sum; do
    caller=${call%:*} callee=${call#*:}
    mkdir -p "proofs/$caller"
    printf '%s\n' "use Rattle.settle_rows.proofs.$caller.Given as goal" "" "abbrev pub ghosts-$callee : goal.ghosts-$callee" \
        "ghosts-$callee g a = record { name = a.blank.name; parts = a.blank.parts }" > "proofs/$caller/Invariants.antt"
done
rt run > /dev/null
/usr/bin/time -f 'peak memory: %M KiB' ./out/settle_rows | sed 's/, 0 look-ups//'

steps=$scratch/crates/pota_base/src/steps.rt
sed -i 's/^    share: Share<L>,$/    share: Share<L>,\n    count: u64,/; s/Steps { book, share }/Steps { book, share, count: 0 }/' "$steps"
sed -i 's/^        self.book.add(&mut self.share, 1);$/        self.count = self.count.wrapping_add(1);\n        self.book.add(\&mut self.share, 1);/' "$steps"
printf '\nimpl<L: Ledger> Steps<L> {\n    pub fn count(&self) -> u64 {\n        self.count\n    }\n}\n' >> "$steps"
sed -i 's/^const RUNS: u32 = .*/const RUNS: u32 = 1;/; s/in \[1, 2, 4\]/in [1]/' src/main.rt
sed -i 's/^    0$/    steps.count()/' src/main.rt
for kind in 0 1 2; do
    sed -i "s/^    for kind in .*/    for kind in $kind..$((kind + 1)) {/" src/main.rt
    rt try --seconds 1200 | sed 's/: [0-9]* us,/:/'
done
