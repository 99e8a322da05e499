# The part of tests/answer for pictures, which reads it.
. tests/comma.sh

# a long log: 5 MB of readouts of one byte behind a version byte
{ printf '\001'; head -c 5000000 /dev/zero | tr '\000' 'r' | sed 's/rrrrr/\x00\x03\x02\x3f\x01/g'; } >"$room/long"
svg=$room/out.svg
draws() { status "$1" bin/answer --picture "$2" "$svg"; } # STATUS LOG
has() { grep -q "$1" "$svg"; }
# the columns, from 0, of the blocks of lost samples, of so many
lost_columns() { sed -n 's/^<rect x="\([0-9.]*\)" .* height="22.0" fill="#c00000".*/\1/p' "$svg" | awk -v columns="$1" '{ printf "%d ", ($1 - 92) / 1084 * columns + 0.5 }'; }
# the numbers under the records
numbers() { sed -n 's/.* y="750.0".*>\([0-9]*\)<.*/\1/p' "$svg" | sort -n | tr '\n' ' '; }
# how many pieces the line of x has
pieces() { sed -n 's/^<path d="\([^"]*\)" fill="none" stroke="#1f5fa8".*/\1/p' "$svg" | tr -cd M | wc -c; }
is_xml() {
    if command -v xmllint >/dev/null; then xmllint --noout "$svg" 2>/dev/null
    else python3 -c 'import sys, xml.dom.minidom; xml.dom.minidom.parse(sys.argv[1])' "$svg" 2>/dev/null; fi
}
# whether it is the picture in docs/, but for when and by what it was drawn
is_on_page() { grep -v '>Drawn ' "docs/$1.svg" >"$room/page.svg" && grep -v '>Drawn ' "$svg" | cmp -s - "$room/page.svg"; } # NAME
no_rest() { [ -z "$(find "$room" -name '.picture.*')" ]; }

# ---- what it shows
draws 0 examples/spring.log && tail -n 1 "$svg" | grep -q "^</svg>" && is_xml && quiet && has ">records 1 to 89: 40 accepted, 32 taken, 8 lost"
expect "a picture has the sentence, and is well-formed" $?
is_on_page spring
expect "docs/spring.svg is that picture" $?
[ "$(lost_columns 89)" = "68 70 72 74 76 78 80 82 " ] && has 'y="673.0".*>8<'
expect "a block for each lost sample, and their number" $?
has "<title" && has "<desc" && has "number of the record" && has "counts, as given" && has "$(sha256sum <examples/spring.log | cut -d ' ' -f 1)" && has "566 bytes" && has "Prundiski .*commit" && has "Drawn 20..-..-.. ..:.. UTC" && [ "$(grep -c stroke-dasharray "$svg")" -ge 4 ]
expect "title, names of the axes, the log's size and SHA-256, version, date, and dashed lines" $?
has '>BYPASS<' && has '>FIFO<' && has '>16g?<' && has 'fill="url(#doubt)"'
expect "the modes, and the range in doubt" $?
for log in drop parked tilted; do
    draws 0 examples/$log.log && is_on_page $log
    expect "docs/$log.svg is the picture of examples/$log.log" $?
done
log_of "$stream$(samples 40)$readout" >"$room/stream.log" && draws 0 "$room/stream.log" && [ "$(lost_columns 42)" = "1 2 3 4 5 6 7 8 " ] && has 'y="673.0".*>8<'
expect "in STREAM the oldest are lost, and marked at their own place" $?
log_of "$(samples 3)" >"$room/bypass.log" && draws 0 "$room/bypass.log" && [ "$(lost_columns 3)" = "0 1 " ] && has "in these records no readout came"
expect "in BYPASS too, and that no readout came" $?
[ "$(numbers)" = "1 2 3 " ]
expect "three records have three numbers" $?
log_of '' >"$room/none.log" && draws 0 "$room/none.log" && [ -z "$(numbers)" ] && has "no records" && is_xml
expect "a log of no records" $?
draws 3 examples/cut.log && has ">refused 9 at record 4<" && has "the log was refused 9 at record 4: it is cut there" && has "records 1 to 3: 1 accepted"
expect "how a cut log ended, and what came up to there" $?
log_of "$(sample 1)$(sample 2)$range_16g$(sample 3)$(sample 4)"'\000\003\001\017\007'"$(sample 5)" >"$room/ranges.log" && draws 0 "$room/ranges.log" && [ "$(pieces)" -eq 3 ]
expect "the line is not joined across a change of the range, nor where it is in doubt" $?
log_of '\000\003\001\076\300\000\003\001\021\200'"$(sample 1)" >"$room/mode.log" && draws 0 "$room/mode.log" && has '>BYPASS?<' && [ "$(grep -c 'h8l-4 9z' "$svg")" -eq 3 ]
expect "the mode in doubt, and refused writes" $?
draws 0 "$room/long" && has "records 1 to 1000000: 0 accepted" && [ "$(wc -c <"$svg")" -lt 300000 ]
expect "a long log has no larger picture" $?

# ---- names and languages
odd=$(printf '%s/a\033[1m\377\302\233\001&<]]>\357\277\277\303\274.log' "$room") && cp examples/printed.log "$odd"
draws 0 "$odd" && is_xml && has 'a\\x1B\[1m\\xFF\\xC2\\x9B\\x01&amp;&lt;]]&gt;\\xEF\\xBF\\xBF' && has "$(printf '\303\274').log"
expect "a name with control characters and bytes that are no UTF-8" $?
undated() { sed 's/Drawn [^b]*by//' "$1"; }
draws 0 examples/spring.log && undated "$svg" >"$room/plain.svg"
if comma=$(comma_locale "$room"); then
    env $comma bin/answer --picture examples/spring.log "$svg" && undated "$svg" | cmp -s - "$room/plain.svg"
    expect "a language with a decimal comma draws the same" $?
    env $comma bin/answer --summary --json examples/spring.log | grep -q '"records":89,'
    expect "and has the same rows" $?
else echo "tests/answer: no language with a decimal comma can be had here, so none was tried"; fi
mkdir "$room/awk"
for awk in mawk gawk; do
    command -v $awk >/dev/null || { echo "tests/answer: there is no $awk, so it was not tried"; continue; }
    ln -sf "$(command -v $awk)" "$room/awk/awk"
    PATH=$room/awk:$PATH bin/answer --picture examples/spring.log "$svg" && undated "$svg" | cmp -s - "$room/plain.svg" &&
        PATH=$room/awk:$PATH bin/answer --picture "$odd" "$svg" && is_xml && PATH=$room/awk:$PATH bin/answer --summary --json "$odd" | grep -q 'a\\u001b\[1m\\\\xFF\\u009b\\u0001'
    expect "$awk draws and writes the same" $?
done

# ---- what it writes
cp examples/spring.log "$room/ev.log" && ln -s ev.log "$room/symbolic" && ln "$room/ev.log" "$room/hard"
for out in ev.log symbolic hard; do
    status 2 bin/answer --picture "$room/ev.log" "$room/$out" && said "is the log itself" && cmp -s examples/spring.log "$room/ev.log"
    expect "a log is not drawn over itself: $out" $?
done
status 2 bin/answer --picture "$room/new.svg" "$room/ev.log" && said "is no picture" && cmp -s examples/spring.log "$room/ev.log" && [ ! -e "$room/new.svg" ]
expect "nor with the names the wrong way round" $?
echo text >"$room/text" && : >"$room/nothing" && echo '<svg xmlns="http://www.w3.org/2000/svg">' >"$room/other.svg"
for out in text nothing other.svg pipe ""; do
    status 2 timeout 10 bin/answer --picture examples/spring.log "$room/$out" && said "is there and is no picture"
    expect "what is there and is no picture is left: ${out:-a folder}" $?
done
[ "$(cat "$room/text")" = text ] && [ ! -s "$room/nothing" ] && [ -p "$room/pipe" ] && status 2 bin/answer --picture examples/spring.log /dev/null && [ -c /dev/null ]
expect "and is as it was; so is a device" $?
status 2 bin/answer --picture - "$room/never.svg" <examples/spring.log && [ ! -e "$room/never.svg" ] && status 2 bin/answer --picture examples/spring.log - && [ ! -e - ]
expect "a picture needs two files" $?
ln -s out.svg "$room/link.svg" && cp "$room/plain.svg" "$svg" && chmod 640 "$svg" && status 3 bin/answer --picture examples/cut.log "$room/link.svg" && [ -h "$room/link.svg" ] && has "refused 9 at record 4" && [ "$(stat -c %a "$svg")" = 640 ]
expect "a picture is replaced, also behind a link, and keeps its mode" $?
: >"$room/before" && status 0 bin/answer --picture examples/spring.log "$svg" && [ -z "$(find . -path ./target -prune -o -newer "$room/before" -type f -print)" ] && no_rest
expect "nothing else is written" $?
for out in none/out.svg /proc/out.svg; do
    case $out in /*) ;; *) out=$room/$out ;; esac
    status 1 bin/answer --picture examples/spring.log "$out" && said "cannot be written"
    expect "a picture that cannot be written: $out" $?
done
cp "$room/plain.svg" "$svg"
(ulimit -f 8 && status 1 bin/answer --picture examples/spring.log "$svg") && said "cannot be written" && cmp -s "$room/plain.svg" "$svg" && no_rest
expect "where there is no room for it the old one stays, and nothing else is left" $?

# ---- what ends it early
for log in ff fe fd; do cat "$room/long"; done | { printf '\001'; tr -d '\001' | sed 's/\x3f/\x3f\x01/g'; } >"$room/longer" # three such
bin/answer --picture "$room/longer" "$svg" 2>"$room/said" &
drawing=$!
until ! no_rest; do kill -0 $drawing 2>/dev/null || break; done
sleep 0.2
kill $drawing
{ wait $drawing; } 2>/dev/null
[ $? -eq 143 ] && quiet && no_rest && cmp -s "$room/plain.svg" "$svg"
expect "SIGTERM leaves the old picture, and no half one" $?
timeout -s INT 0.6 bin/answer --picture "$room/longer" "$svg" 2>"$room/said"
[ $? -eq 124 ] && no_rest && cmp -s "$room/plain.svg" "$svg"
expect "ctrl-C too" $?
cp "$room/long" "$room/grows" && rm -f "$room/grown.svg"
bin/answer --picture "$room/grows" "$room/grown.svg" 2>"$room/said" &
drawing=$!
until ! no_rest; do kill -0 $drawing 2>/dev/null || break; done
sleep 0.3
printf '\000\001\004' >>"$room/grows"
{ wait $drawing; } 2>/dev/null
[ $? -eq 1 ] && said "changed while it was drawn" && no_rest && [ ! -e "$room/grown.svg" ]
expect "a log that changes meanwhile is not drawn: its SHA-256 would be another log's" $?
