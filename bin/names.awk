# Names of logs, which are any bytes, as a terminal, a table, JSON or a picture may have them. Bytes are counted as bytes: LC_ALL is C.
# With alone from outside it prints TEXT, of the environment, as a terminal may have it, and with sound it ends with status 1 where TEXT is no
# UTF-8; else it is for the scripts that are read with it.

BEGIN {
    for (byte = 1; byte < 256; byte++) code[sprintf("%c", byte)] = byte
    if (alone) printf "%s", shown(ENVIRON["TEXT"])
    if (sound) exit !is_utf8(ENVIRON["TEXT"])
}

function byte_at(s, i) { return code[substr(s, i, 1)] + 0 } # 0 past the end
function follows(s, i) { return byte_at(s, i) >= 128 && byte_at(s, i) < 192 }

# How many bytes the character at i has, and in point which it is; 0 where the bytes there are no UTF-8.
function utf8(s, i,   b) {
    b = point = byte_at(s, i)
    if (b < 128) return 1
    if (b < 194 || b > 244 || !follows(s, i + 1)) return 0
    point = (b % 32) * 64 + byte_at(s, i + 1) - 128
    if (b < 224) return 2
    if (!follows(s, i + 2)) return 0
    point = (b % 16) * 4096 + (byte_at(s, i + 1) - 128) * 64 + byte_at(s, i + 2) - 128
    if (b < 240) return point >= 2048 && (point < 55296 || point > 57343) ? 3 : 0
    if (!follows(s, i + 3)) return 0
    point = (b % 8) * 262144 + (byte_at(s, i + 1) - 128) * 4096 + (byte_at(s, i + 2) - 128) * 64 + byte_at(s, i + 3) - 128
    return point >= 65536 && point < 1114112 ? 4 : 0
}

function is_utf8(s,   i, k) { for (i = 1; i <= length(s); i += k) if ((k = utf8(s, i)) == 0) return 0; return 1 }

# Whether a character only shows itself: no control, nothing that turns the direction of a line or ends it, and none that XML lacks.
function is_plain(p) {
    if (p < 32 || (p >= 127 && p < 160) || p == 65534 || p == 65535) return 0
    return !(p == 1564 || p == 8206 || p == 8207 || (p >= 8232 && p <= 8238) || (p >= 8294 && p <= 8297))
}

# The parts of a name as they are shown, in unit, and how many: a character each, or \xNN for a byte that is not to be shown.
function units(s,   i, n, k) {
    n = 0
    for (i = 1; i <= length(s); i += k) {
        k = utf8(s, i)
        if (k > 0 && is_plain(point)) unit[++n] = substr(s, i, k)
        else { k = 1; unit[++n] = sprintf("\\x%02X", byte_at(s, i)) }
    }
    return n
}
function shown(s,   i, n, all) { all = ""; n = units(s); for (i = 1; i <= n; i++) all = all unit[i]; return all }

# the same, with the middle left out where there are more parts than that
function shortened(s, most,   i, n, all) {
    n = units(s); all = ""
    for (i = 1; i <= n; i++) {
        if (n > most && i == int(most / 2)) { all = all " .. "; i = n - int(most / 2) + 3 }
        all = all unit[i]
    }
    return all
}

# A cell of a table. A spreadsheet takes = + - @ and others in front for a formula: ./ before it names the same file.
function cell(s) {
    if (s != "-" && (s ~ /^[=+@\t\r\n-]/ || substr(s, 1, 2) == "\357\274")) s = "./" s
    if (s ~ /[",;\t\n\r]/) { gsub(/"/, "\"\"", s); s = "\"" s "\"" }
    return s
}

# A string of JSON: a byte that is no UTF-8 stands as \xNN in it.
function json(s,   i, k, c, all) {
    all = ""
    for (i = 1; i <= length(s); i += k) {
        k = utf8(s, i); c = substr(s, i, k)
        if (k == 0) { k = 1; all = all sprintf("\\\\x%02X", byte_at(s, i)) }
        else if (!is_plain(point)) all = all sprintf("\\u%04x", point)
        else all = all (c == "\"" || c == "\\" ? "\\" : "") c
    }
    return "\"" all "\""
}
