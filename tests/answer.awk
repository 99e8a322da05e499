# Checks what an answer program says of one log, in four of its forms, against itself: the stretches, the words for the whole log, the
# stretches with their modes, and those with the samples. A line for each fault goes to standard error.
# - Stretches are adjacent, cover all records and conserve: held before + accepted = taken + lost + cleared + held after.
# - The words have the sum of all stretches. A range or mode is told when it changes and not again; a doubt has its refused write.
# - With modes the stretches are the same, and each has the range and the mode that the words say are in force at its last record, and the
#   rest those behind it.
# - The samples are those that the stretches count, and the rest of their file is the third. What a sample lost is what the mode says: in
#   FIFO itself, in STREAM the one 32 back, in BYPASS the one before it; no sample is lost twice, nor one that was not held.
# It prints the log's status (0 or 3), its records, two record numbers FROM and TO by the seed, half of them ends of stretches and some
# past the end of the log, and where the stretches tell the sum from FROM to TO, the line with it that the words have to have.
# use: awk -v seed=SEED -f tests/answer.awk STRETCHES WHOLE MODES SAMPLES
function fault(what) { print FILENAME " line " FNR ": " what >"/dev/stderr" }
function draw(limit) { state = (state * 16807) % 2147483647; return int(state / 2147483647 * limit) }
function sum(a, b, of) { return of[b] - of[a] }
function totals(a, z) {
    return sprintf("records %d to %d: %d accepted, %d taken, %d lost, %d cleared, %d held before, %d held after, %d refused", end[a] + 1, end[z],
        sum(a, z, accepted), sum(a, z, taken), sum(a, z, lost), sum(a, z, cleared), holds[a], holds[z], sum(a, z, refused))
}

# the first file: one stretch
function stretch() {
    if ($1 != end[stretches] + 1 || $2 < $1) fault("not adjacent")
    if (held + $4 != $5 + $6 + $7 + $8) fault("not conserved")
    if ($10 == "rest") rest++; else if (rest) fault("behind the rest")
    if ($10 == "readout") readouts++
    if ($10 == "refused") doubted[$2] = 1
    held = $8
    before = stretches++
    at[$2] = stretches
    end[stretches] = $2; holds[stretches] = $8
    accepted[stretches] = accepted[before] + $4; taken[stretches] = taken[before] + $5
    lost[stretches] = lost[before] + $6; cleared[stretches] = cleared[before] + $7
    refused[stretches] = refused[before] + $9
}
function last_fits() {
    if ($1 == "end") return NF == 2 && $2 == records
    if ($1 != "stop" || NF != 3) return 0
    return $2 == 0 ? records == 0 && $3 ~ /^[79]$/ : $2 == records + 1 && $3 ~ /^[89]$/
}
function last() {
    records = end[stretches] + 0
    status = $1 == "end" ? 0 : 3
    ending = $1 == "end" ? "the log ends after record " $2 : "the log was refused " $3 " at record " $2
    if (ended++) fault("two last lines")
    if (!last_fits()) fault("the last line is not that of " records " records")
}
FILENAME == ARGV[1] {
    line[FNR] = $0
    lines = FNR
    if (NF == 10) stretch(); else last()
    next
}

# the second: a range or mode, from a record on. Where it is in doubt, the record before it was refused, with the same words.
function in_force(what, address, first, text, name) {
    first = $3 + 0
    text = $0
    sub(/^from record [0-9]+: /, "", text)
    name = $4
    sub(/,$/, "", name)
    if (first < told_from || (changes[what] ? text == text_now[what] : first != 1)) fault("not in its place, or told twice")
    if (name ~ /\?$/) {
        doubts[what]++
        if (text !~ ("because " wrote[first - 1] "$") || wrote[first - 1] !~ (" to " address " ")) fault("a doubt without its refused write")
    } else if (text ~ /because/) fault("a reason without a doubt")
    told_from = first
    text_now[what] = text
    from_record[what, ++changes[what]] = first
    named[what, changes[what]] = name
}
function refused_write(text) {
    if ($2 < told_from || $2 > records) fault("not in its place")
    text = $0
    sub(/ [0-9]+$/, "", text)
    wrote[$2] = text
    told_from = $2
    if ($6 == "0F" || $6 == "3E") codes[$6]++
    if (($6 == "0F") != ($2 in doubted)) fault("not as the stretch that ends here")
    writes++
}
function whole() {
    if (/^from record [0-9]+: (2|4|8|16)g(\?, because record [0-9]+ wrote .. to 0F and was refused)?$/) in_force("range", "0F")
    else if (/^from record [0-9]+: (BYPASS\??, 1 frame|(FIFO|STREAM)\??, 32 frames)(, because record [0-9]+ wrote .. to 3E and was refused)?$/)
        in_force("mode", "3E")
    else if (/^record [0-9]+ wrote [0-9A-F][0-9A-F] to [0-9A-F][0-9A-F] and was refused [0-9]+$/) refused_write()
    else closing[++closings] = $0
}
FILENAME == ARGV[2] { whole(); next }
function closed(text) { if (closing[++closed_with] != text) fault("the words for the whole log lack: " text) }
function check_closing() {
    if (records > 0) closed(totals(0, stretches))
    if (lost[stretches] > 0) closed("lost: no readout of the FIFO (a read at 3F) can give them; a read of 02 to 07 is no readout")
    if (records > 0 && !readouts) closed("in these records no readout came")
    closed(ending)
    if (closed_with != closings) fault("the words for the whole log have more lines")
    if (doubts["range"] != codes["0F"] || doubts["mode"] != codes["3E"]) fault("refused writes and doubts differ in number")
    if (writes > refused[stretches]) fault("more refused writes than refused events")
}

# what is in force when a record comes, for records in rising order by a file
function in_force_at(what, record) {
    if (place[FILENAME, what] == 0) place[FILENAME, what] = 1
    while (place[FILENAME, what] < changes[what] && from_record[what, place[FILENAME, what] + 1] <= record) place[FILENAME, what]++
    return named[what, place[FILENAME, what]]
}

# the third: the first with the modes
FILENAME == ARGV[3] {
    with_mode[FNR] = $0
    wanted = line[FNR]
    if (NF == 11) {
        shown = $2 + ($10 == "rest")
        wanted = wanted " " in_force_at("mode", shown)
        if ($3 != in_force_at("range", shown)) fault("not the range that the words tell")
    }
    if ($0 != wanted) fault("not the stretch with the mode that the words tell")
    moded = FNR
    next
}

# the fourth: one sample, the samples-th accepted one
function sample(mode, gone) {
    if ($2 <= sampled || $2 <= end[told]) fault("not in its place")
    sampled = $2
    samples++
    mode = in_force_at("mode", $2)
    gone = samples - $7
    samples_lost += $6
    if (NF != 7 || $6 !~ /^[01]$/) fault("not a sample line")
    if ($7 != ($6 ? mode ~ /^FIFO/ ? 0 : mode ~ /^STREAM/ ? 32 : 1 : 0)) fault("not the one that is lost in " mode)
    if (!$6) return
    if (gone < 1 || gone in went) fault("the lost one is none, or is lost twice")
    if (gone <= accepted[told] - holds[told]) fault("the lost one was not held")
    went[gone] = 1
}
$1 == "sample" { sample(); next }
{
    if ($0 != with_mode[++same]) fault("not as without samples")
    if (NF != 11) next
    told++
    if (sampled > $2) fault("samples of a later stretch")
    if (samples != accepted[told] || samples_lost != lost[told]) fault("the stretch counts other samples")
}

function choose(a) {
    state = seed % 1000003 + 1
    for (i = 0; i < 5; i++) draw(1)
    if (draw(2)) {
        a = draw(stretches + 1)
        from = end[a] + 0
        to = a < stretches ? end[a + 1 + draw(stretches - a + 1)] : 0
        if (to <= from) to = from + 1 + draw(20)
    } else {
        from = draw(records + int(records / 8) + 3)
        to = from + 1 + draw(records + 3)
    }
}
END {
    if (!ended || moded != lines || same != lines) fault("lines are missing")
    check_closing()
    choose()
    at[0] = 0
    b = to < records ? to : records
    printf "%d %d %d %d", status, records, from, to
    if ((from in at) && (b in at) && from < b) printf " %s", totals(at[from], at[b])
    print ""
}
