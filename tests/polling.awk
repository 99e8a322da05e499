# Q-13: holds the replay of a log in which polls were put, or whose reads were cut, against the replay of the log itself, both with the pins
# behind each line; MARKS says which record is which (peer/logs.c). The lines of all other records are the same but for their numbers, and
# the pieces of a read are accepted and their bytes together are the read's. Prints how many polls and pieces there were and how many lines
# were compared, and to standard error what is wrong.
# use: awk -f tests/polling.awk MARKS TEXT MARKED_TEXT
function fault(what) {
    if (!faults++) print "line " FNR " of " FILENAME ": " what >"/dev/stderr"
}
# what a line says behind its number: a record's has the answer, bytes or none, and two pins
function told(before) {
    if ($1 == "pins") return $0
    return $2 " " before (NF == 5 ? $3 : "") " " $(NF - 1) " " $NF
}
FILENAME == ARGV[1] { mark[FNR] = $1; next }
FILENAME == ARGV[2] { first[FNR] = told(""); answer[FNR] = $2; lines = FNR; next }
{
    is = rest ? "rest" : mark[FNR]
    if (is == "rest") rest = 1
}
is == "poll" { polls++; next }
is == "piece" {
    pieces++
    if ($2 != "0" || NF != 5) fault("a piece is not accepted")
    joined = joined $3
    next
}
{
    at++
    compared++
    if (is == "data" ? answer[at] != $2 : first[at] != told(joined)) fault("line " at " of the log as it is says otherwise")
    joined = ""
}
END {
    if (at != lines) fault(at + 0 " of " lines " lines")
    print polls + 0, pieces + 0, compared + 0
}
