# What docs/PROMISES.md lists as what must be believed, followed into what it rests on. A row lists a file of definitions or one definition of
# it, with its lines; a row of the other kind names definitions and the theorems that hold them. Whatever a listed file imports from the
# definitions of a crate here, and whatever a listed definition names, has to be listed or held. A type that the source declares is a type of
# the program and is neither; what is of no crate here is the kit's. A definition that is held is not followed: its theorems say what it comes
# to, and the file of one of them has to speak of it, or of a listed definition that is made of it. And of the rows that have the sentences
# of 01, one marked E or C has to have a listed statement and a theorem, one marked D a definition, and one marked T a reason.
# use: awk -f tests/believed.awk docs/PROMISES.md crates/*/specs/*.antt
# It prints "= PLACE TAB LINES TAB COUNT" for each row that lists, "! WORDS" for what is not so, and "# NUMBER" of names and sentences at the end.

BEGIN {
    for (i = 2; i < ARGC; i++) {
        split(ARGV[i], step, "/")
        here[step[2]] = 1
    }
}

# the names between back quotes in a text, into the array `quoted`; how many
function quotes(text, n) {
    n = 0
    while (match(text, /`[^`]*`/)) {
        quoted[++n] = substr(text, RSTART + 1, RLENGTH - 2)
        text = substr(text, RSTART + RLENGTH)
    }
    return n
}

function file_of(name) {
    sub(/: .*/, "", name)
    return name
}

# BY, which is listed, names the definition NAME; in it the definition `block` is made of that
function named(by, name) {
    if (block != "") users[name] = users[name] " " block
    if (!(name in speaks)) names++
    speaks[name] = 1
    if (name in listed || file_of(name) in listed || name in held || name in told) return
    told[name] = 1
    print "! docs/PROMISES.md lists " by ", which names " name ": it is neither listed nor held by a theorem"
}

# whether a file of proofs has one of the names, which stand between spaces, as a word
function speaks_of(path, some, line, word, n, i, found) {
    found = 0
    while (!found && (getline line <path) > 0) {
        gsub(/[(){};,.]/, " ", line)
        n = split(line, word, " ")
        for (i = 1; i <= n; i++) if (index(some, " " word[i] " ")) found = 1
    }
    close(path)
    return found
}

# the names in a line of the file, named by BY
function follow(by, line, word, n, i, name, behind) {
    gsub(/[(){};,]/, " ", line)
    n = split(line, word, " ")
    for (i = 1; i <= n; i++) {
        name = word[i]
        if (name in from) named(by, from[name])
        if (by != file && name in own && name != block) named(by, file ": " name)
        if (index(name, ".") < 2) continue
        behind = name
        sub(/\..*/, "", name)
        sub(/^[^.]*\./, "", behind)
        if (name in alias) named(by, alias[name] ": " behind)
    }
}

function indent(line) {
    match(line, /^ */)
    return RLENGTH
}

# a row of the sentences: by which letter, its statement, its theorem and its definition
function sentence(by, statement, theorem, definition, n, i, some) {
    some = 0
    n = quotes(statement)
    for (i = 1; i <= n; i++) if (quoted[i] ~ /^[a-z0-9_]*\/specs\//) {
        some = 1
        if (by ~ /[EC]/ && !(quoted[i] in listed) && !(file_of(quoted[i]) in listed))
            print "! docs/PROMISES.md has a sentence by" by "whose statement is not listed: " quoted[i]
    }
    if (by ~ /[EC]/ && !(some && theorem ~ /\/proofs\//) || by ~ /D/ && definition !~ /\/specs\// || by ~ /T/ && statement !~ /[a-z]/)
        print "! docs/PROMISES.md has a sentence by" by "without what that asks for: " $0
    sentences++
}

# ---- the page
FILENAME == ARGV[1] && /^\|.*\| [EDCT] \|/ {
    split($0, cell, "|")
    sentence(cell[3], cell[4], cell[5], cell[6])
    next
}

FILENAME == ARGV[1] {
    if ($0 !~ /^\| `[a-z0-9_]*\/specs\//) next
    split($0, cell, "|")
    n = quotes(cell[2])
    if (cell[3] ~ /^ [0-9]* $/) {
        listed[quoted[1]] = cell[3] + 0
        if (quoted[1] ~ /: /) parts[file_of(quoted[1])] = 1
        order[++rows] = quoted[1]
        next
    }
    if (cell[3] !~ /`[a-z0-9_]*\/proofs\//) next
    for (i = 1; i <= n; i++) {
        held[quoted[i]] = ""
        holding[i] = quoted[i]
    }
    m = quotes(cell[3])
    for (j = 1; j <= m; j++) for (i = 1; i <= n; i++) held[holding[i]] = held[holding[i]] " " file_of(quoted[j])
    next
}

# ---- a file of definitions
FNR == 1 {
    file = FILENAME
    sub(/^crates\//, "", file)
    sub(/\.antt$/, "", file)
    wanted = file in listed || file in parts
    split("", from)
    split("", alias)
    split("", own)
    split("", over)
    block = ""
}

!wanted { next }
/^ *--/ { next }
{ sub(/ +--.*/, "") }

/^use Rattle/ {
    line = $0
    sub(/^use Rattle\./, "", line)
    if (line ~ /specs\.declared\./) next
    if (line !~ /(\{.*\}| as [a-zA-Z]+)$/) print "! " FILENAME ": an import that tests/believed.awk cannot read: " $0
    crate = line
    sub(/[^a-z0-9_].*/, "", crate)
    if (!(crate in here)) next
    sub(/^[^.]*\./, "", line)
    place = line
    sub(/(\.\{| as ).*/, "", place)
    gsub(/\./, "/", place)
    place = crate "/" place
    if (line !~ /\{/) {
        sub(/.* as /, "", line)
        alias[line] = place
        next
    }
    gsub(/^[^{]*\{|\}.*/, "", line)
    n = split(line, word, ", *")
    for (i = 1; i <= n; i++) {
        name = word[i]
        sub(/ as .*/, "", name)
        sub(/.* as /, "", word[i])
        from[word[i]] = place ": " name
        # an operator is met by what stands between its places
        split(word[i], between, "◌")
        for (k in between) if (between[k] != "") from[between[k]] = from[word[i]]
        if (file in listed) named(file, place ": " name)
    }
    next
}
/^(use|pub mod) / { next }

# an empty line ends a definition
/^ *$/ {
    block = ""
    next
}

# what a part of the file is over; its definitions stand further in
/^ *(module|infix)/ {
    count[file]++
    over[indent($0)] = $0
    if (file in listed) follow(file, $0)
    next
}

block == "" {
    block = $0
    sub(/^ *((abbrev|unfoldable) )?(pub )?((data|record) )?/, "", block)
    sub(/ .*/, "", block)
    own[block] = 1
    if (!(file in listed) && (file ": " block) in listed) for (k in over) if (k + 0 < indent($0)) follow(file ": " block, over[k])
}

{
    count[file]++
    count[file ": " block]++
    if (file in listed) follow(file, $0)
    else if ((file ": " block) in listed) follow(file ": " block, $0)
}

END {
    block = ""
    for (i = 1; i <= rows; i++) {
        print "= " order[i] "\t" listed[order[i]] "\t" count[order[i]] + 0
        if (order[i] ~ /: / && !(order[i] in speaks)) print "! docs/PROMISES.md lists " order[i] ", and nothing else that it lists names it"
    }
    for (name in held) {
        if (!(name in speaks)) print "! docs/PROMISES.md has " name " as held, and nothing that it lists names it"
        bare = name
        sub(/.*: /, "", bare)
        n = split(held[name], word, " ")
        found = 0
        for (i = 1; i <= n; i++) if (speaks_of("crates/" word[i] ".antt", " " bare users[name] " ")) found = 1
        if (!found) print "! docs/PROMISES.md has " name " as held, and no file of its theorems speaks of it"
    }
    if (!sentences) print "! docs/PROMISES.md has no sentences"
    print "# " names + sentences
}
