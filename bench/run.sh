#!/bin/sh
# Runs the benchmark over 1,000,000 positions and writes the figures of this run into docs/BENCHMARKS.md, in place of what stands there.
# It builds the program first, which is proved before.
set -e
cd "$(dirname "$0")/.."
(cd crates/bench && rt run) > /dev/null
figures=$(mktemp)
memory=$(mktemp)
./crates/bench/out/bench million > "$figures" &
program=$!
# resident memory, read ten times a second while the program runs
while kill -0 "$program" 2>/dev/null; do
    sed -n 's/^VmRSS:[[:space:]]*//p' "/proc/$program/status" 2>/dev/null >> "$memory" || true
    sleep 0.1
done
wait "$program"
mkdir -p docs
{
    echo "# Benchmarks"
    echo
    echo "One run of \`bench\` over 1,000,000 positions, two a round: an operation opened and ended, one parameter set between. The plain host"
    echo "holds four rows of 255; the book has one property with two quantifiers and four formulas; values are yes/no and distance side by side."
    echo "Written by \`bench/run.sh\`; other work may have run on the machine at the same time."
    echo
    echo "Machine: $(sed -n 's/^model name[[:space:]]*: //p' /proc/cpuinfo | head -1), $(nproc) cores, $(uname -sr), $(date -u +%Y-%m-%d)."
    echo
    echo "    $(rt version 2>/dev/null | head -1)"
    echo
    echo "| tenth of the path | positions a second |"
    echo "|-|-|"
    sed -n 's/^tenth \([0-9]*\): \([0-9]*\) positions a second$/| \1 | \2 |/p' "$figures"
    echo
    echo "Resident memory over the run: $(sort -n "$memory" | head -1) at the least, $(sort -n "$memory" | tail -1) at the most, $(wc -l < "$memory") readings."
    echo
    echo "What the formulas are worth at the end:"
    echo
    sed -n 's/^formula/    formula/p' "$figures"
} > docs/BENCHMARKS.md
rm -f "$figures" "$memory"
