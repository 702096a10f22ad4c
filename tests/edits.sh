#!/usr/bin/env bash
# Tries the wrong bodies that the gate leaves out, crates/NAME/more-edits/*.edit, and prints 'N refused, M not': the prover has to refuse
# each. It does so in a copy of the files as they stand, where `rt must-fail` finds them, begun with what `rt check` kept. Half a minute each, and
# the checks of those crates where none was kept.
#
#   tests/edits.sh [NAME..]      those of these crates, or of all
set -euo pipefail
cd "$(dirname "$0")/.."
names=("$@")
if ((${#names[@]} == 0)); then
    for folder in crates/*/more-edits; do names+=("$(basename "$(dirname "$folder")")"); done
fi
copy=$(mktemp -d)
trap 'rm -rf "$copy"' EXIT
git ls-files -z --cached --others --exclude-standard | xargs -0 -r ls -d 2> /dev/null | xargs -d '\n' cp --parents -t "$copy"
for name in "${names[@]}"; do
    [[ -d $copy/crates/$name/more-edits ]] || { echo "edits.sh: $name has no more-edits"; exit 2; }
    rm -rf "$copy/crates/$name/must-fail"
    mv "$copy/crates/$name/more-edits" "$copy/crates/$name/must-fail"
done
cd "$copy"
tried=$(find "${names[@]/#/crates/}" -path '*/must-fail/*.edit' | wc -l)
rt must-fail "${names[@]}" 2>&1 | tee told | grep --line-buffered -E 'must-fail [a-z_]+/|^rt: .*(error|cannot)' || true
refused=$(grep -cE 'must-fail [a-z_]+/[^:]*: refused, as it must be' told || true)
echo "$refused refused, $((tried - refused)) not"
((refused == tried))
