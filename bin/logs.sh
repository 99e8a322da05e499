# For the commands of bin/ that take several logs, behind program.sh: words that are no options, lists of names, and the program's text
# through a filter.

wrong() { say "$1"; usage | sed '/^$/q' >&2; exit 2; }

# The words that are no options, by their numbers: eval "set -- $operands$more". To put each behind all of them would copy them each time.
operands= more=
operand() { # NUMBER
    more="$more \"\${$1}\""
    [ ${#more} -lt 8000 ] || { operands=$operands$more more=; }
}

# Of names those that can be read, as such words: eval "set -- $(readable "$@")". The others are told.
readable() { # LOG..
    at=0
    for word; do
        at=$((at + 1))
        can_read "$word" && printf ' "${%s}"' "$at"
    done
}

# The names in a list, as words of the shell, each in quotation marks. Status 3 where it has NUL bytes and is read by lines.
names_of() { # SEPARATOR, in hexadecimal; and the list on standard input
    od -An -v -tx1 | awk -v separator="$1" -v quote="'" '
    BEGIN { for (i = 1; i < 256; i++) character[sprintf("%02x", i)] = sprintf("%c", i); character["27"] = quote "\\" quote quote }
    function put() { if (word != "") printf " %s%s%s", quote, word == "-" ? "./-" : word, quote; word = "" }
    { for (i = 1; i <= NF; i++) if ($i == separator) put(); else if ($i == "00") exit 3; else word = word character[$i] }
    END { put() }'
}
take_list() { # FILE: its names, in listed
    case $1 in
    -) listed=$(names_of "$separator") ;;
    *) can_read "$1" || exit 1; listed=$(names_of "$separator" <"$1") ;;
    esac
    case $? in
    0) ;;
    3) say "$1 has NUL bytes between its names: -0 reads those"; exit 2 ;;
    *) say "$1 cannot be read"; exit 1 ;;
    esac
    [ -n "$listed" ] || { say "$1 names no $kind"; exit 2; }
}

# A command with its text through a filter: FILTER is a command of this script that reads it. The status is 1 where the filter fails.
through() { # FILTER COMMAND ARG..
    filter=$1
    shift
    { status=$({ { "$@" 6>&- 7>&-; echo $? >&7; } | "$filter" 7>&- >&6; echo $? >&7; } 7>&1); } 6>&1
    set -- $status # the command's, and the filter's; the filter's alone where it ended first
    case $* in
    *141*) exit 141 ;;
    "0 0" | "2 0" | "3 0") return "$1" ;;
    "1 "* | *" 0") return 1 ;; # which it said
    *" 4") say "what the program printed does not add up, so nothing is drawn"; return 1 ;;
    esac
    say "the output cannot be written"
    return 1
}
