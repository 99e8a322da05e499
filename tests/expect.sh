# For the tests of the commands, which set test to their own name and read this: $room is a folder for them, which goes at their end.
room=$(mktemp -d) || exit 2
trap 'rm -rf "$room"' EXIT
passed=0 failed=0

# expect WHAT STATUS: the last command's status says whether WHAT holds
expect() {
    if [ "$2" -eq 0 ]; then passed=$((passed + 1)); else
        failed=$((failed + 1))
        echo "tests/$test: not so: $1"
    fi
}

# status N COMMAND..: the command's status is N; what it prints is in $room/out, and what it says on standard error in $room/said
status() {
    want=$1
    shift
    "$@" >"$room/out" 2>"$room/said"
    [ $? -eq "$want" ]
}
# one line on standard error, with these words
said() { [ "$(wc -l <"$room/said")" -eq 1 ] && grep -q "$1" "$room/said"; }
quiet() { [ ! -s "$room/said" ]; }

# the last line, and the status of the test
count_up() {
    echo "tests/$test: $passed passed, $failed failed"
    [ "$failed" -eq 0 ]
}
