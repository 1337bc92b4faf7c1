#!/bin/sh
# Copies the Rust's six files to the folder $1, after comparing each with the checksum of the published one.
# They are looked for in the folder STACK_ASSEMBLY_SRC, or else in ../shared/docs/src beside the repository.
set -eu
here=$(cd "$(dirname "$0")" && pwd)
from=${STACK_ASSEMBLY_SRC:-$here/../../../shared/docs/src}
[ -d "$from/crates/stack-assembly/src" ] && from=$from/crates/stack-assembly/src
if ! [ -f "$from/eval.rs" ]; then
    echo "the Rust's sources are not in $from: name their folder by STACK_ASSEMBLY_SRC" >&2
    exit 1
fi
[ $# -eq 0 ] && exit 0
while read -r _ file; do
    cp "$from/$file" "$1/$file"
    chmod u+w "$1/$file"
done < "$here/SHA256SUMS"
cd "$1" && sha256sum --quiet --check "$here/SHA256SUMS"
