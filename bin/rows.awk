# Rows of several logs, of what the proved program prints of each: see bin/answer --csv and --summary. A log's name comes before its
# text, in a line behind `log`, and where the name has line ends, the rest of it in lines behind `more`. From outside: as, which is csv,
# summary or json; header; and terminal, where the rows go to one.

BEGIN {
    columns = as == "csv" ? "from,to,range,accepted,taken,lost,cleared,held,refused,why,mode" : "records,accepted,taken,lost,cleared,held,refused,ranges,doubt,ended"
    if (header && as != "json") print "log," columns
    split(columns, column, ",")
}

function begin(s) {
    name = s
    named = as == "json" ? json(name) : cell(terminal ? shown(name) : name)
    records = 0; doubt = 0; many = 0
    for (each in of) delete of[each]
}
/^log / { begin(substr($0, 5)); next }
/^more / { begin(name "\n" substr($0, 6)); next }

# ---- csv: of `modes`
as == "csv" {
    if (NF == 11) { gsub(/ /, ","); print named "," $0 }
    else if ($1 == "end") print named ",," $2 ",,,,,,,,end,"
    else if ($1 == "stop") print named ",," $2 ",,,,,,,,stop " $3 ","
    next
}

# ---- summary: of `all`, whose last line tells how the log ended
function add_range(r,   i) {
    for (i = 1; i <= many; i++) if (range[i] == r) return
    range[++many] = r
}
function joined(between,   i, all) {
    all = ""
    for (i = 1; i <= many; i++) all = all (i > 1 ? between : "") range[i]
    return all
}
function put(ended,   i, row) {
    of["records"] = records; of["ended"] = ended
    if (as == "json") { of["ranges"] = many ? "[\"" joined("\",\"") "\"]" : "[]"; of["doubt"] = doubt ? "true" : "false"; of["ended"] = "\"" ended "\"" }
    else { of["ranges"] = joined(" "); of["doubt"] = doubt ? "yes" : "no" }
    row = as == "json" ? "{\"log\":" named : named
    for (i = 1; i <= 10; i++) {
        if (!(column[i] in of)) of[column[i]] = 0
        row = row "," (as == "json" ? "\"" column[i] "\":" : "") of[column[i]]
    }
    print row (as == "json" ? "}" : "")
}
$1 == "from" {
    sub(/,$/, "", $4)
    if (sub(/\?$/, "", $4)) doubt = 1
    if ($4 ~ /^[0-9]+g$/) add_range($4)
}
$1 == "records" {
    records = substr($4, 1, length($4) - 1)
    of["accepted"] = $5; of["taken"] = $7; of["lost"] = $9; of["cleared"] = $11; of["held"] = $16; of["refused"] = $19
}
/^the log ends after record / { put("end") }
/^the log was refused / { put("stop " $5) }
