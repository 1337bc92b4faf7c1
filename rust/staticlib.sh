#!/bin/sh
# Builds the engine's static library, and puts each of its functions at the start of a cache line: wherever a linker lays them, the
# loops of a run then stay within as few lines as they can (docs/BENCHMARKS.md). Without objcopy the library is as rt writes it.
set -eu
cd "$(dirname "$0")/.."
(cd crates/stack_assembly_c && rt lib)
mkdir -p target/staticlib
cp crates/stack_assembly_c/out/libstack_assembly_c.a target/staticlib/
if command -v objcopy > /dev/null; then
    objcopy --set-section-alignment '.text.*=64' target/staticlib/libstack_assembly_c.a
else
    echo "objcopy is not at hand: functions start where the linker puts them"
fi
