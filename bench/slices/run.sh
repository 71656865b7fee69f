#!/usr/bin/env bash
# Prints the time of each call on slices at 32 processes and 50,000 events, and of `explain` for each operator, true and false, and by
# how much the peak of the memory rose in the call. It works on a scratch copy of the crates, where what is timed is proved and built:
# the program that has the rows of slices, with another `main`. The best of a line's repetitions counts.
set -e
here=$(cd "$(dirname "$0")" && pwd)
. "$here/../scratch.sh"
scratch_crates $(crates_below layer_rows)
sed -i '/^layer_rows:/s/$/ anyhow/' "$scratch/crates.txt"
cd "$scratch/crates/layer_rows"
rm -r stdin stdout proofs/{atom,states} proofs/Atoms.antt src/{asking,atom,kind,made_log,states,slice_reading,slice_telling,slice_verdict}.rt src/*_row.rt
echo 'pub mod Settling' > proofs/Lib.antt
for part in main given calls; do
    cp "$here/$part.txt" "src/$part.rt"
done
# In the proofs each row that was put into the list stays a row, and the cut keeps its width.
mkdir -p proofs/calls/cuts_of proofs/calls/found_rows
cat > proofs/calls/found_rows/Invariants.antt <<'END'
use Rattle.std.proofs.Common.{◌≡◌, length}
use Rattle.layer_rows.proofs.calls.found_rows.Given as goal

abbrev pub invariant-loop-row : goal.invariant-loop-row
invariant-loop-row l = length l.cut ≡ length l.slice.lens
END
cat > proofs/calls/cuts_of/Invariants.antt <<'END'
use Rattle.std.proofs.Common.{◌≡◌, ℕ, ◌+◌, length, get_or}
use Rattle.slice_graph.specs.Views.{IsRow, no_row}
use Rattle.layer_rows.proofs.calls.cuts_of.Given as goal

abbrev pub invariant-loop-row : goal.invariant-loop-row
invariant-loop-row l = record {
  count : length l.cuts + 1 ≡ l.row;
  rows : (row : ℕ) → IsRow l.slice.lens (get_or l.cuts row no_row);
}
END
cat > proofs/calls/cuts_of/Answers.antt <<'END'
use Rattle.std.proofs.Common.{◌≡◌, ℕ, zero, suc, List, [], ◌∷◌, ◌++◌, Option, length, get_or, sym, subst, arith}
use Rattle.run_model.specs.Cut.{Cut}
use Rattle.slice_graph.specs.Views.{IsRow, no_row}
use Rattle.layer_rows.proofs.calls.cuts_of.Goals as goal

rows_more : (lens : List ℕ) (rows : List (Option Cut)) (k : Option Cut) → ((row : ℕ) → IsRow lens (get_or rows row no_row)) → IsRow lens k
    → (row : ℕ) → IsRow lens (get_or (rows ++ k ∷ []) row no_row)
rows_more lens [] k rows more zero = more
rows_more lens [] k rows more (suc row) = _
rows_more lens (first ∷ rest) k rows more zero = rows 0
rows_more lens (first ∷ rest) k rows more (suc row) = rows_more lens rest k (λ n. rows (suc n)) more row
END
rt run > /dev/null
# Memory that was given back is the kernel's at once, so that the peak tells what a call took.
echo 'times, and peaks that hide what was free already'
./out/layer_rows
echo 'peaks, and times in which all memory is new'
MALLOC_MMAP_THRESHOLD_=65536 MALLOC_TRIM_THRESHOLD_=65536 ./out/layer_rows
