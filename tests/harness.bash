# For the scripts that use what was built: runs commands, and compares what they print. A script that sources this file stops
# at the first command that is not as it has to be. Its files go to the folder $room.
set -euo pipefail
room=$(mktemp -d)
trap 'rm -rf "$room"' EXIT

# fail TEXT: ends the script, and prints the output of the last command.
fail() {
    echo "FAILED  $1"
    cat "$room/log"
    exit 1
}

# ok NAME COMMAND..: the command has to succeed.
ok() {
    "${@:2}" >"$room/log" 2>&1 || fail "$1"
    echo "ok      $1"
}

# says NAME TEXT COMMAND..: the command has to succeed and to print this text.
says() {
    ok "$1" "${@:3}"
    grep -qF -- "$2" "$room/log" || fail "$1: no '$2'"
}

# is NAME STATUS OUTPUT ERROR COMMAND..: the command has to end with this status, and to print exactly these texts.
is() {
    local status=0
    "${@:5}" >"$room/out" 2>"$room/err" || status=$?
    head -c 400 "$room/out" "$room/err" >"$room/log"
    [ "$status" = "$2" ] && cmp -s "$room/out" <(printf '%s' "$3") && cmp -s "$room/err" <(printf '%s' "$4") ||
        fail "$1: status $status"
    echo "ok      $1"
}

# in_folder FOLDER COMMAND..
in_folder() (cd "$1" && "${@:2}")
