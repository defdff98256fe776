#!/usr/bin/env bash
# Tests the program and its environment: arguments that are not text, standard streams that are closed, full or cut
# short, an input that never ends, and each request for memory refused in turn. Each run has to end with the right text and
# status, or be ended by the system, and never with a wrong list. No contract says what main does with arguments and faults.
#
#     tests/program.sh [PROGRAM]..
#
# Without arguments it tests what `rt ci` left: the program as each compiler built it. If there is none, it builds one.
. "$(dirname "$0")/harness.bash"
if (($# == 0)); then
    crate=$(cd "$(dirname "$0")/../crates/p3_util_run" && pwd)
    set -- "$crate/out/p3_util_run"
    [[ -x $1 ]] || (cd "$crate" && rt run -- revbits <stdin)
    [[ ! -x $1.by-rattle ]] || set -- "$1" "$1.by-rattle"
fi

list='[10,20,30,40]'
turned=$'[10,30,20,40]\n'
unknown=$'error: unknown command\n'
unread=$'error: input cannot be read\n'
no_array=$'error: input is not a JSON array of u64\n'
unwritten=$'error: output cannot be written\n'
no_memory=$'error: out of memory\n'

words() {
    is 'no words' 2 '' "$unknown" "$1" <<<"$list"
    is 'an empty word' 2 '' "$unknown" "$1" '' <<<"$list"
    is 'a command that is no UTF-8' 2 '' "$unknown" "$1" $'\xff' <<<"$list"
    is 'a further word that is no UTF-8' 2 '' "$unknown" "$1" revbits $'\xff' <<<"$list"
    is 'a side that is no UTF-8' 2 '' "$unknown" "$1" transpose 2 $'2\xc3' <<<"$list"
    is 'a word more than the command takes' 2 '' "$unknown" "$1" transpose 3 2 junk <<<'[1,2,3,4,5,6]'
    is 'a side with many leading zeros' 0 $'[1,4,2,5,3,6]\n' '' "$1" transpose "$(printf '%0300d' 3)" 2 <<<'[1,2,3,4,5,6]'

    # Argument 0, the program's name, is not one of its arguments.
    mkdir -p "$room/"$'folder\xff'
    cp "$1" "$room/"$'folder\xff/p3'
    is 'a folder whose name is no UTF-8' 0 "$turned" '' "$room/"$'folder\xff/p3' revbits <<<"$list"
    is 'a name that is no UTF-8' 0 "$turned" '' bash -c $'exec -a \xff "$0" revbits' "$1" <<<"$list"
}

# Each `bash -c` opens the streams of the program in its own way.
streams() {
    is 'an empty input' 2 '' "$no_array" "$1" revbits </dev/null
    is 'an input in two parts' 0 "$turned" '' "$1" revbits < <(printf '[10,20,' && sleep 0.2 && printf '30,40]')
    is 'standard input closed' 2 '' "$unread" "$1" revbits <&-
    is 'a folder as standard input' 2 '' "$unread" "$1" revbits </
    is 'standard input open for writing alone' 2 '' "$unread" "$1" revbits 0>"$room/none"
    is 'an input that never ends' 3 '' "$no_memory" bash -c 'ulimit -v 262144 && "$0" revbits' "$1" </dev/zero
    is 'standard output closed' 2 '' "$unwritten" bash -c '"$0" revbits >&-' "$1" <<<"$list"
    is 'a full device' 2 '' "$unwritten" bash -c '"$0" revbits >/dev/full' "$1" <<<"$list"
    is 'standard output open for reading alone' 2 '' "$unwritten" bash -c '"$0" revbits 1</dev/null' "$1" <<<"$list"
    is 'standard error closed' 2 '' '' bash -c '"$0" revbits 2>&-' "$1" <<<'[1,2,3]'

    # Nobody reads this pipe. The program ignores the signal for this, and sees that its write fails.
    mkfifo "$room/pipe"
    is 'a pipe closed early' 2 '' "$unwritten" bash -c 'exec 3<>"$1" 4>"$1" 3>&- && "$0" revbits >&4' "$1" "$room/pipe" <<<"$list"
    rm "$room/pipe"
}

# refusing N PROGRAM ARGUMENT..: runs the program, and refuses its Nth request for memory or, if N is 0, none. It has to give
# back all memory that it was given. It sets `requests` to the number of requests.
refusing() {
    local status=0 held
    timeout 60 env REFUSED="$1" LD_PRELOAD="$room/refuse_growth.so" "${@:2}" 9>"$room/counts" || status=$?
    read -r requests held <"$room/counts" && ((held == 0)) || { echo "$held blocks of memory were not given back" && return 99; }
    return "$status"
}

# out_of_memory REQUESTS INPUT STATUS OUTPUT ERROR PROGRAM ARGUMENT..: the run makes so many requests. If one of them is
# refused, it says so and writes nothing. A run that goes on after a refusal, or that returns another fault, fails here.
out_of_memory() {
    local n
    is "${*:7}" "$3" "$4" "$5" refusing 0 "${@:6}" <<<"$2"
    ((requests == $1)) || fail "it made $requests requests, and not $1"
    for ((n = 1; n <= $1; n++)); do
        is "${*:7}, request $n refused" 3 '' "$no_memory" refusing "$n" "${@:6}" <<<"$2"
    done
}

refusals() {
    out_of_memory 10 "$list" 0 "$turned" '' "$1" revbits
    out_of_memory 12 '[0,1,2,3,4,5,6,7]' 0 $'[0,1,4,5,2,3,6,7]\n' '' "$1" revrows 2
    out_of_memory 14 '[1,2,3,4,5,6]' 0 $'[1,4,2,5,3,6]\n' '' "$1" transpose 3 2
    out_of_memory 8 '[1,2,3]' 2 '' $'error: length 3 is neither zero nor a power of two\n' "$1" revbits
    out_of_memory 9 '[1,2,3]' 2 '' $'error: length 3 is not 2 times zero or a power of two\n' "$1" revrows 2
    out_of_memory 10 "$list" 2 '' $'error: 3 by 2 is not the length 4\n' "$1" transpose 3 2
}

"${CC:-cc}" -O1 -shared -fPIC -o "$room/refuse_growth.so" "$(dirname "$0")/refuse_growth.c"
for program in "$@"; do
    program=$(realpath "$program")
    echo "$program"
    words "$program"
    streams "$program"
    refusals "$program"
done
