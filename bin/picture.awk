# Draws a log as SVG, from what the proved program prints with `all` and then with `samples`: see bin/answer --picture. It is read behind
# names.awk. From the environment: LOG, the log's name; TOLD, the last sentences of `all`; SIZE and SUM, the log's bytes and their
# SHA-256; MADE and DAY, by what and when; MARK, the picture's first line. Records stand in as many columns as there is room for, so
# that neither the memory nor the picture grows with the log. It ends with status 4 where the lines do not add up.

BEGIN {
    left = 92; wide = 1084; right = left + wide
    many_told = split(ENVIRON["TOLD"], told, "\n")
    for (i = 1; i <= many_told; i++) read_told(told[i])
    columns = records < wide ? records : wide
    dense = columns < records
    marked = columns <= 160 # room for a mark on each sample
    split("#1f5fa8 #1a7a3c #6a3d9a", colour, " "); split("x y z", axis, " ")
    dash[1] = ""; dash[2] = " stroke-dasharray=\"7 3\""; dash[3] = " stroke-dasharray=\"2 2.5\""
    shade["2g"] = "#eaf2fa"; shade["4g"] = "#c6dbef"; shade["8g"] = "#9ecae1"; shade["16g"] = "#6baed6"
    shade["BYPASS"] = "#f3f0e6"; shade["FIFO"] = "#fdd0a2"; shade["STREAM"] = "#f5a55a"; shade["several"] = "url(#several)"
    red = "#c00000"; now = first = -1
}

# Totals and end, of the sentences.
function read_told(s,   part) {
    split(s, part, " ")
    if (part[1] == "records") { records = part[4] + 0; accepted = part[5] + 0; all_lost = part[9] + 0; all_refused = part[19] + 0 }
    if (part[1] == "the" && part[3] == "was") { stop = part[5]; stopped_at = part[8] }
}

function column(record) { return int((record - 1) * columns / records) }
function place(col) { return left + col * wide / columns } # its left side
function middle(col) { return place(col) + wide / columns / 2 }
function escaped(s) { gsub(/&/, "\\&amp;", s); gsub(/</, "\\&lt;", s); gsub(/>/, "\\&gt;", s); return s }
function text(x, y, size, anchor, s, more) { printf "<text x=\"%.1f\" y=\"%.1f\" font-size=\"%d\" text-anchor=\"%s\"%s>%s</text>\n", x, y, size, anchor, more, escaped(s) }
function box(x, y, w, h, fill, more) { printf "<rect x=\"%.2f\" y=\"%.1f\" width=\"%.2f\" height=\"%.1f\" fill=\"%s\"%s/>\n", x, y, w, h, fill, more }
function line(x1, y1, x2, y2, more) { printf "<line x1=\"%.1f\" y1=\"%.1f\" x2=\"%.1f\" y2=\"%.1f\"%s/>\n", x1, y1, x2, y2, more }
function long(s, size) { return size * (0.63 * length(s) + 0.12 * gsub(/[A-Z]/, "", s)) } # about as wide as it is drawn

# ---- what the program says with `all`: ranges, modes and refused writes, each from its record on

# a band's columns from a record up to another have that word
function fill(band, word, from, to,   c) {
    if (word == "" || from > to) return
    for (c = column(from); c <= column(to); c++) {
        if (!((band, c) in in_force)) in_force[band, c] = word
        else if (in_force[band, c] != word) in_force[band, c] = in_force[band, c] word ~ /\?/ ? "several?" : "several"
    }
}
function change(band, word, record) {
    fill(band, is[band], since[band], record - 1)
    is[band] = word; since[band] = record
}
$1 == "from" {
    record = substr($3, 1, length($3) - 1) + 0; word = $4
    sub(/,$/, "", word)
    change(word ~ /^[0-9]/ ? "range" : "mode", word, record)
    next
}
$1 == "record" { refused[column($2)]++; refused_writes++; next }

# ---- and with `samples`: samples and stretches. Samples come in order, so that one column is worked on at a time.
function keep_column() {
    if (now < 0) return
    low[1, now] = low_x; low[2, now] = low_y; low[3, now] = low_z
    top[1, now] = top_x; top[2, now] = top_y; top[3, now] = top_z
    come[now] = in_column
    if (low_x < least) least = low_x; if (low_y < least) least = low_y; if (low_z < least) least = low_z
    if (top_x > most) most = top_x; if (top_y > most) most = top_y; if (top_z > most) most = top_z
}
$1 == "sample" {
    c = int(($2 - 1) * columns / records)
    if (c != now) {
        keep_column()
        now = c; in_column = 0
        low_x = top_x = $3 + 0; low_y = top_y = $4 + 0; low_z = top_z = $5 + 0
    } else {
        if ($3 < low_x) low_x = $3 + 0; else if ($3 > top_x) top_x = $3 + 0
        if ($4 < low_y) low_y = $4 + 0; else if ($4 > top_y) top_y = $4 + 0
        if ($5 < low_z) low_z = $5 + 0; else if ($5 > top_z) top_z = $5 + 0
    }
    in_column++; samples++
    if (first < 0) first = c
    ring[samples % 33] = c # the FIFO holds 32, so a lost one is not further back
    if ($6) { lost[ring[(samples - $7) % 33]]++; sum_lost++ }
    next
}
NF == 11 {
    if (first >= 0) {
        if (last_range != "" && last_range != $3) { if (first == last_column) mixed[first] = 1; else gap[first] = 1 }
        last_range = $3; last_column = now
    }
    first = -1
    if ($10 == "readout") { readout[column($2)] = 1; readouts++ }
}

# ---- the parts of the picture

function draw_head(   i, y, name) {
    name = shortened(ENVIRON["LOG"], 78)
    text(left, 30, 20, "start", name, " font-weight=\"bold\"")
    text(left, 50, 13, "start", "What came in this log, record by record: range and FIFO mode, samples, which of them were lost, readouts and refused writes", "")
    for (i = 1; i <= many_told; i++) text(left, 55 + 17 * i, 13, "start", told[i] (i == many_told && stop ? ": " meaning(stop) : ""), i == many_told && stop ? " font-weight=\"bold\" fill=\"" red "\"" : "")
    text(left, 57 + 17 * i, 12, "start", ENVIRON["SIZE"] (ENVIRON["SIZE"] == 1 ? " byte" : " bytes") ", SHA-256 " ENVIRON["SUM"], "")
}
function meaning(r) { return r == 7 ? "its version byte is not 1" : r == 8 ? "the length or the kind of that record is wrong" : stopped_at > 0 ? "it is cut there" : "it is empty" }

# A band, and its words: inside where there is room, else above, where they do not print over each other.
function draw_band(band, y, label,   c, d, w, plain, x, free) {
    text(left - 8, y + 15, 12, "end", label, "")
    free = left - 4
    for (c = 0; c < columns; c = d) {
        w = in_force[band, c]
        for (d = c + 1; d < columns && in_force[band, d] == w; d++) ;
        plain = w; sub(/\?/, "", plain)
        if (plain == "") continue
        box(place(c), y, place(d) - place(c), 22, shade[plain], "")
        if (w ~ /\?/) box(place(c), y, place(d) - place(c), 22, "url(#doubt)", "")
        if (d < columns) line(place(d), y, place(d), y + 22, " stroke=\"#000\" stroke-width=\"0.6\"")
        x = (place(c) + place(d)) / 2
        if (place(d) - place(c) > long(w, 13) + 6) {
            if (w ~ /\?/) box(x - long(w, 13) / 2 - 3, y + 3, long(w, 13) + 6, 16, "#fff", "")
            text(x, y + 16, 13, "middle", w, "")
        } else if (plain != "several" && (!dense || place(d) - place(c) > 6) && free - x + long(w, 11) / 2 < 30 && x + long(w, 11) / 2 < right + 4) {
            if (x - long(w, 11) / 2 > free) free = x - long(w, 11) / 2
            text(free, y - 4, 11, "start", w, "")
            line(x, y, free + long(w, 11) / 2, y - 3, " stroke=\"#000\" stroke-width=\"0.6\"")
            free += long(w, 11) + 5
        }
    }
    box(left, y, wide, 22, "none", " stroke=\"#555\" stroke-width=\"0.8\"")
}

# a sample's mark: a circle, a square or a triangle for x, y and z
function put_mark(a, x, y) {
    if (a == 1) printf "<circle cx=\"%.1f\" cy=\"%.1f\" r=\"2.4\" fill=\"%s\"/>\n", x, y, colour[a]
    else if (a == 2) printf "<rect x=\"%.1f\" y=\"%.1f\" width=\"4.4\" height=\"4.4\" fill=\"%s\"/>\n", x - 2.2, y - 2.2, colour[a]
    else printf "<path d=\"M%.1f %.1fl3 5.2h-6z\" fill=\"%s\"/>\n", x, y - 3, colour[a]
}
# a lost sample: a cross in an open circle
function put_lost(x, y) { printf "<path d=\"M%.1f %.1fl7 7m0 -7l-7 7\" stroke=\"%s\" stroke-width=\"1.4\"/><circle cx=\"%.1f\" cy=\"%.1f\" r=\"5\" fill=\"none\" stroke=\"%s\"/>\n", x - 3.5, y - 3.5, red, x, y, red }

function scaled(v) { return panel + high / 2 - v * (high / 2 - 6) / limit }
function draw_scale(a) {
    box(left, panel, wide, high, "none", " stroke=\"#555\" stroke-width=\"0.8\"")
    line(left, scaled(0), right, scaled(0), " stroke=\"#999\" stroke-width=\"0.8\"")
    text(left - 8, scaled(limit) + 5, 12, "end", limit, "")
    text(left - 8, scaled(0) + 4, 12, "end", "0", "")
    text(left - 8, scaled(-limit) + 3, 12, "end", -limit, "")
    text(40, scaled(0) + 5, 16, "middle", axis[a], " font-weight=\"bold\"")
}
# The line is not joined where the range in force, or its doubt, is another one than at the sample before.
function draw_axis_of(a,   c, path, pen) {
    draw_scale(a)
    path = ""; pen = "M"
    for (c = 0; c < columns; c++) if ((a, c) in low) {
        if ((c in gap) || (c in mixed)) pen = "M"
        if (c in mixed) path = path sprintf("M%.1f %.1fh0.01M%.1f %.1fh0.01", middle(c), scaled(top[a, c]), middle(c), scaled(low[a, c]))
        else path = path sprintf("%s%.1f %.1f", pen, middle(c), scaled(top[a, c])) (dense ? sprintf("L%.1f %.1f", middle(c), scaled(low[a, c]) + 0.5) : pen == "M" ? "h0.01" : "")
        pen = c in mixed ? "M" : "L"
        if (marked) { put_mark(a, middle(c), scaled(low[a, c])); if (lost[c]) put_lost(middle(c), scaled(low[a, c])) }
    }
    if (path != "") printf "<path d=\"%s\" fill=\"none\" stroke=\"%s\" stroke-width=\"%s\" stroke-linecap=\"round\"%s/>\n", path, colour[a], dense ? "0.9" : "1.2", dense ? "" : dash[a]
}
function draw_samples(   a, c) {
    for (limit = 16; limit < most || limit < -least; limit *= 2) ;
    high = 116
    for (c = 0; c < columns; c++) if (lost[c]) box(place(c), 256, wide / columns < 1 ? 1 : wide / columns, 364, red, sprintf(" fill-opacity=\"%.3f\"", 0.14 * lost[c] / come[c]))
    for (a = 1; a <= 3; a++) { panel = 256 + 124 * (a - 1); draw_axis_of(a) }
    if (records < 1) text((left + right) / 2, 428, 16, "middle", "no records", "")
    else if (samples < 1) text((left + right) / 2, 430, 14, "middle", "no samples were accepted", "")
    text(18, 438, 13, "middle", "counts, as given", " transform=\"rotate(-90 18 438)\"")
    if (!stop) return
    line(right + 4, 246, right + 4, 732, " stroke=\"" red "\" stroke-width=\"3\" stroke-dasharray=\"8 5\"")
    text(right + 2, 250, 12, "end", "refused " stop " at record " stopped_at, " font-weight=\"bold\" fill=\"" red "\"")
}

# Blocks at the samples that were lost, as high as their share of the column's samples. Under those that lie close together is how many;
# where two such numbers would print over each other they are one.
function draw_lost(   c, n, i, w) {
    text(left - 8, 650, 12, "end", "lost", "")
    if (!all_lost) text(left + 4, 650, 12, "start", "none", " fill=\"#555\"")
    n = 0
    for (c = 0; c < columns; c++) if (lost[c]) {
        w = 22 * lost[c] / come[c]; if (w < 2) w = 2
        box(place(c), 656 - w, wide / columns < 1 ? 1 : wide / columns, w, red, "")
        if (n && place(c) - place(group_to[n] + 1) < 30 && (!dense || place(c) - place(group_from[n]) < 54)) { group_to[n] = c; group_sum[n] += lost[c] }
        else { n++; group_from[n] = group_to[n] = c; group_sum[n] = lost[c] }
        while (n > 1 && overlap(n - 1, n)) { group_to[n - 1] = group_to[n]; group_sum[n - 1] += group_sum[n]; n-- }
    }
    for (i = 1; i <= n; i++) {
        line(place(group_from[i]) + 0.5, 659, place(group_to[i] + 1) - 0.5, 659, " stroke=\"#000\" stroke-width=\"1\"")
        text(group_middle(i), 673, 12, "middle", sprintf("%.0f", group_sum[i]), "")
    }
}
function group_middle(i,   x, w) {
    x = (place(group_from[i]) + place(group_to[i] + 1)) / 2; w = long(sprintf("%.0f", group_sum[i]), 12) / 2
    return x + w > right + 12 ? right + 12 - w : x
}
function overlap(i, j) { return group_middle(j) - group_middle(i) < (long(sprintf("%.0f", group_sum[i]), 12) + long(sprintf("%.0f", group_sum[j]), 12)) / 2 + 5 }

function put_refused(x, y) { printf "<path d=\"M%.1f %.1fh8l-4 9z\" fill=\"#fff\" stroke=\"#000\"/>\n", x - 4, y }
function draw_ticks(   c) {
    text(left - 8, 696, 12, "end", "readouts", "")
    if (!readouts) text(left + 4, 696, 12, "start", "none", " fill=\"#555\"")
    for (c = 0; c < columns; c++) if (c in readout) box(middle(c) - 0.8, 684, 1.6, 15, "#000", "")
    text(left - 8, 719, 12, "end", "refused", "")
    if (!refused_writes) text(left + 4, 719, 12, "start", all_refused ? "no writes; " all_refused " other events" : "none", " fill=\"#555\"")
    for (c = 0; c < columns; c++) if (c in refused) put_refused(middle(c), 709)
}

# numbers of records: the first, the last, and round ones in between where there is room
function draw_number(record,   x, half) {
    x = middle(column(record)); half = long(sprintf("%.0f", record), 12) / 2
    line(x, 732, x, 737, " stroke=\"#000\"")
    text(x + half > 1196 ? 1196 - half : x, 750, 12, "middle", sprintf("%.0f", record), "")
}
function draw_records(   step, ten, record, room) {
    line(left, 732, right, 732, " stroke=\"#000\"")
    text(left + wide / 2, 768, 13, "middle", "number of the record" (dense ? sprintf("; a column has %.0f or %.0f of them", int(records / columns), int(records / columns) + 1) : ""), "")
    if (records < 1) return
    for (ten = 1; ; ten *= 10) { step = ten; if (records <= 10 * step) break; step = 2 * ten; if (records <= 10 * step) break; step = 5 * ten; if (records <= 10 * step) break }
    room = long(sprintf("%.0f", records), 12) + 8
    draw_number(1)
    if (records > 1) draw_number(records)
    for (record = step; record < records; record += step)
        if (record > 1 && middle(column(record)) - middle(0) > room && middle(columns - 1) - middle(column(record)) > room + 12) draw_number(record)
}

function legend(x, y, s) { text(x + 26, y + 4, 12, "start", s, "") }
function draw_legend(   a, x) {
    for (a = 1; a <= 3; a++) {
        x = left + 90 * (a - 1)
        line(x, 792, x + 22, 792, " stroke=\"" colour[a] "\" stroke-width=\"1.6\"" (dense ? "" : dash[a]))
        if (marked) put_mark(a, x + 11, 792)
        legend(x, 792, axis[a])
    }
    x = left + 270; if (marked) put_lost(x + 6, 792); box(x + (marked ? 14 : 6), 785, 8, 14, red, ""); legend(x, 792, "a sample that was lost, at its own place; below, how many")
    x = left + 670; box(x + 10, 785, 1.6, 14, "#000", ""); legend(x, 792, "readout")
    x = left + 770; put_refused(x + 12, 788); legend(x, 792, "refused write" (all_refused > refused_writes ? sprintf(" (others, not drawn: %.0f)", all_refused - refused_writes) : ""))
    box(left, 808, 22, 14, "url(#doubt)", " stroke=\"#999\""); legend(left, 815, "? range or mode in doubt: the last write to it was refused")
    if (dense) { box(left + 400, 808, 22, 14, "url(#several)", " stroke=\"#999\""); legend(left + 400, 815, "several in one column"); legend(left + 560, 815, "lines reach from the smallest to the largest value of a column") }
    else legend(left + 400, 815, "a line is not joined where the range in force is another one, or in doubt")
    text(left, 842, 11, "start", "Drawn " ENVIRON["DAY"] " by bin/answer of " ENVIRON["MADE"] ". The log is not changed by it.", " fill=\"#333\"")
}

function draw_desc(   i) {
    printf "<title id=\"title\">%s: range, FIFO mode, samples and losses by record</title>\n<desc id=\"desc\">", escaped(shown(ENVIRON["LOG"]))
    for (i = 1; i <= many_told; i++) printf "%s. ", escaped(told[i])
    printf "%.0f readouts, %.0f refused writes. %s bytes, SHA-256 %s. ", readouts, refused_writes, ENVIRON["SIZE"], ENVIRON["SUM"]
    print "From left to right by record: bands of the range and the FIFO mode in force, hatched where in doubt; x, y and z of the accepted samples, in counts; the lost samples; readouts; refused writes.</desc>"
}

END {
    keep_column()
    if (samples != accepted || sum_lost != all_lost || refused_writes > all_refused) exit 4
    change("range", "", records + 1); change("mode", "", records + 1)
    print ENVIRON["MARK"]
    print "<svg xmlns=\"http://www.w3.org/2000/svg\" viewBox=\"0 0 1200 856\" font-family=\"sans-serif\" role=\"img\" aria-labelledby=\"title desc\">"
    draw_desc()
    print "<defs><pattern id=\"doubt\" width=\"7\" height=\"7\" patternUnits=\"userSpaceOnUse\" patternTransform=\"rotate(45)\"><line x1=\"0\" y1=\"0\" x2=\"0\" y2=\"7\" stroke=\"" red "\" stroke-width=\"2\"/></pattern>"
    print "<pattern id=\"several\" width=\"4\" height=\"4\" patternUnits=\"userSpaceOnUse\"><rect width=\"4\" height=\"4\" fill=\"#fff\"/><circle cx=\"2\" cy=\"2\" r=\"1\" fill=\"#555\"/></pattern></defs>"
    box(0, 0, 1200, 856, "#fff", "")
    draw_head(); draw_band("range", 170, "range"); draw_band("mode", 212, "FIFO mode")
    draw_samples(); draw_lost(); draw_ticks(); draw_records(); draw_legend()
    print "</svg>"
}
