#!/usr/bin/env bash
# Runs README's command that proves a program and runs it, and compares its output with the end of its line. If `rt ci` has built the
# program, it is not proved and built again. Then proves the examples of docs/CALLING.md as a reader pastes them: a block of Rust
# that has `use` lines becomes a module of a crate that depends only on p3_util. They are proved by `rt ci`, without the
# must-fail edits of the crates below, which take most of its time.
set -euo pipefail
cd "$(dirname "$0")/.."

line=$(grep -m 1 '^(cd crates/.* rt run ' README.md)
command=${line%%   #*}
[ ! -x crates/p3_util_run/out/p3_util_run ] || command=${command/rt run --/out/p3_util_run}
printed=$(bash -c "$command")
[ "$printed" = "${line##* }" ] || { printf 'FAILED  %s\nprints %s\n' "$line" "$printed" >&2 && exit 1; }
echo "README's command prints $printed"

room=$(mktemp -d)
trap 'rm -rf "$room"' EXIT
copy=$room/copy

mkdir -p "$copy/crates"
for crate in p3_util p3_util_kernels; do
    mkdir "$copy/crates/$crate"
    cp -r "crates/$crate"/{src,specs,proofs} "$copy/crates/$crate/"
done
cp HANDLES "$copy/"
grep -E '^(p3_util|p3_util_kernels):' crates.txt >"$copy/crates.txt"
echo 'examples: p3_util p3_util_kernels serde_json' >>"$copy/crates.txt"

python3 - docs/CALLING.md "$copy/crates/examples/src" <<'PYTHON'
import pathlib
import re
import sys

page, examples = map(pathlib.Path, sys.argv[1:])
blocks = re.findall(r"^```rust\n(.*?)^```", page.read_text(encoding="utf-8"), re.M | re.S)
blocks = [block.replace("#![tactic(auto)]\n", "") for block in blocks if re.search(r"^use ", block, re.M)]
names = ["page_" + re.search(r"^pub fn (\w+)", block, re.M)[1] for block in blocks]
if not names:
    raise SystemExit(f"FAILED  there is no example in {page}")
examples.mkdir(parents=True)
for name, block in zip(names, blocks):
    (examples / f"{name}.rt").write_text(block, encoding="utf-8")
modules = "".join(f"pub mod {name};\n" for name in sorted(names))
(examples / "lib.rt").write_text(f"//! The examples of {page}.\n#![tactic(auto)]\n\n{modules}", encoding="utf-8")
print(f"{len(names)} examples of {page}")
PYTHON

(cd "$copy" && rt ci) >"$room/log" 2>&1 || { grep -E '^fn |error|^note: `|formatted|FAILED' "$room/log" || tail "$room/log"; exit 1; }
tail -n 1 "$room/log"
