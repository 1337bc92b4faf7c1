#!/bin/sh
# Runs the benchmark with the engine's code at 12 places, 0 to 30 bytes after a cache line, three times at each, and prints each row's mean over the places of
# the engine's best there (docs/BENCHMARKS.md). The library of target/staticlib is put back at the end.
set -eu
cd "$(dirname "$0")"
library=../target/staticlib/libstack_assembly_c.a
[ -f "$library" ] || ./staticlib.sh
places=../target/places
rm -rf "$places"
mkdir -p "$places"
cp "$library" "$places/aligned.a"
trap 'cp "$places/aligned.a" "$library"' EXIT

for pad in 0 3 5 8 11 14 16 19 22 25 27 30; do
    (
        cd "$places"
        ar x aligned.a
        objcopy --set-section-alignment '.text.*=1' stack_assembly_c.o
        printf '.section .text.aaa_pad,"axR",@progbits\n.balign 64\n.fill %d, 1, 0x90\n.section .note.GNU-stack,"",@progbits\n' "$pad" | as -o pad.o -
        ld -r -o moved.o pad.o stack_assembly_c.o
        rm -f moved.a
        ar rcs moved.a moved.o
    )
    cp "$places/moved.a" "$library"
    touch stack-assembly/build.rs
    cargo build --offline --release -p benchmark 2> "$places/cargo.log" || { cat "$places/cargo.log" >&2; exit 1; }
    for run in 1 2 3; do
        target/release/benchmark | sed "s/^/$pad /" >> "$places/rows"
    done
done

awk -F ' *[|] *' '$4 ~ /^[0-9]/ {
    split($4, engine, " ")
    key = $2 SUBSEP $1
    speed = engine[2] == "MB/s"
    if (!(key in best) || (speed ? engine[1] > best[key] : engine[1] < best[key])) best[key] = engine[1]
    if (!($2 in unit)) order[++rows] = $2
    unit[$2] = substr($4, length(engine[1]) + 2)
}
END {
    for (key in best) { split(key, part, SUBSEP); sum[part[1]] += best[key]; count[part[1]]++ }
    for (i = 1; i <= rows; i++) printf "| %s | %.2f %s |\n", order[i], sum[order[i]] / count[order[i]], unit[order[i]]
}' "$places/rows"
