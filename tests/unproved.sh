#!/usr/bin/env bash
# Runs the tests of tests/unproved without a proof, in a copy of the crates: those of the library and of the callers, which are
# a crate of their own, and those of the program, next to its proved ones.
#
#     tests/unproved.sh [FLAG..]
#     tests/unproved.sh --refused
#
# FLAGs are those of `rt try`, for example `-- views`, which runs the tests whose names contain `views`. With
# `--fail-alloc N` the Nth request for memory is refused in each test. The variable UNPROVED may name one folder of
# tests/unproved, whose tests are run alone.
#
# With --refused it refuses each request for memory in turn: of the requests of each test in a module `growth`, the first is
# refused, then in another run the second, and so on. These tests count their requests and the memory they hold themselves.
. "$(dirname "$0")/harness.bash"
cd "$(dirname "$0")/.."
copy=$room/copy

if [[ ${1-} = --refused ]]; then
    # The largest number of requests that a test makes.
    most=$(grep -hoE 'makes_requests\w*\(&rt, [0-9]+' tests/unproved/src/growth.rt.in | grep -oE '[0-9]+$' | sort -n | tail -n 1)
    for ((n = 1; n <= most; n++)); do
        UNPROVED=src says "request $n refused" 'growth::' tests/unproved.sh --fail-alloc "$n" -- growth::
    done
    exit
fi

below='p3_util_examples p3_util_kernels p3_util p3_util_vectors'
for crate in $below p3_util_run; do
    mkdir -p "$copy/crates/$crate"
    cp -a "crates/$crate/src" "$copy/crates/$crate/"
    grep "^$crate:" crates.txt >>"$copy/crates.txt"
done
mkdir -p "$copy/crates/p3_util_unproved/src"
cp -a tests/unproved/c "$copy/crates/p3_util_unproved/"
echo "p3_util_unproved: $below serde_json" >>"$copy/crates.txt"
printf '\nmod unproved;\n' >>"$copy/crates/p3_util_run/src/tests.rt"

refused=$(sed -n 's/.*--fail-alloc \([0-9]*\).*/\1/p' <<<"$*")
# On a machine with nothing else to do, the longest test takes 20 seconds, mostly since `rt try` looks for bad accesses. With
# other work it takes many times that.
export RT_ALLOW_C=1 CFLAGS="-DREFUSED=${refused:-0}" RT_SECONDS=${RT_SECONDS-600}

# tests_of CRATE FOLDER FLAG..: runs the tests of a folder, which are modules of the crate. The gate would take a file
# that ends in .rt for one of the crates that it proves, so they end in .rt.in here.
tests_of() {
    local file written src=$copy/crates/$1/src
    [[ tests/unproved/${UNPROVED-${2##*/}} = "$2" ]] || return 0
    mkdir -p "$src/tests"
    for file in $(cd "$2" && find . -name '*.rt.in'); do
        cp "$2/$file" "$src/${file%.in}"
    done
    written=$(find "$src" -name '*.rt' -exec cat {} + | grep -c '^#\[test\]$')
    (cd "$copy/crates/$1" && rt try --test "${@:3}") | tee "$copy/printed"
    grep -qx "tests: $written" "$copy/printed" || { echo "FAILED  $written tests are written in $1" && exit 1; }
}

tests_of p3_util_unproved tests/unproved/src "$@"
tests_of p3_util_run tests/unproved/p3_util_run "$@"
