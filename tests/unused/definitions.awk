# Lists the public definitions of specs/**/*.antt and the public laws of proofs/**/*.antt that no line
# names, as `crate/file: name`. The input is every .antt and .rt file of crates/, then the documents that
# promise theorems. A name counts as used where a line outside its own declaration says it: in its own
# file, in a file that imports it, or behind the word that a file imports its module as. What a document
# says counts as used, and all of a file of proofs that it names without a list of names. The proofs of
# contracts (`NAME_spec`, and what stands in Answers and Invariants) are not listed. `private=1` lists what is not public too.

# the file behind a path like Rattle.readings.specs.Shape
function file_of(path) {
    if (!sub(/^Rattle[.]/, "", path)) return ""
    gsub(/[.]/, "/", path)
    return "crates/" path ".antt"
}

# notes what a `use` line brings into this file
function note_import(line,    path, names, list, count, i, parts) {
    sub(/^.*use +/, "", line)
    sub(/; *$/, "", line)
    if (line ~ /[.][{]/) {
        path = names = line
        sub(/[.][{].*/, "", path)
        sub(/^[^{]*[{]/, "", names)
        sub(/[}].*$/, "", names)
        count = split(names, list, /, */)
        for (i = 1; i <= count; i++) {
            if (split(list[i], parts, / +as +/) == 1) parts[2] = parts[1]
            from_file[FILENAME, parts[2]] = file_of(path)
            from_name[FILENAME, parts[2]] = parts[1]
        }
    } else if (split(line, parts, / +as +/) == 2) {
        module[FILENAME, parts[2]] = file_of(parts[1])
    }
}

# the name that a declaration's first line gives, or none
function declared(line,    words, i) {
    split(line, words, / +/)
    i = 1
    while (words[i] ~ /^(|abbrev|unfoldable|pub)$/ && i < 5) i++
    if (words[i] ~ /^(record|data)$/) return words[i + 1]
    return words[i + 1] == ":" && words[i] !~ /^[({]/ ? words[i] : ""
}

# a mixfix name like ◌<ᶠ◌ is said by its words
function note_mixfix(name,    parts, count, i) {
    count = split(name, parts, /(◌)+/)
    for (i = 1; i <= count; i++)
        if (parts[i] != "") mixfix[parts[i]] = name
}

# `file` says `name`, so the file says it that it comes from
function note_use(file, name,    key) {
    used[file, name] = 1
    key = file SUBSEP name
    if (key in from_file && !(key in followed)) {
        followed[key] = 1
        note_use(from_file[key], from_name[key])
    }
}

function note_word(word,    alias) {
    if (word in mixfix) word = mixfix[word]
    if (word ~ /[^.][.][^.]/) {
        alias = word
        sub(/[.].*/, "", alias)
        sub(/^[^.]*[.]/, "", word)
        sub(/[.].*/, "", word)
        if ((FILENAME, alias) in module) note_use(module[FILENAME, alias], word)
        word = alias
    }
    sub(/[.]+$/, "", word)
    if (word != of) note_use(FILENAME, word)
}

# a path of the code, as an attribute cites a law or a definition: crate::proofs::ChannelLaws::fit
function note_path(path,    parts, count, file, i) {
    count = split(path, parts, /::/)
    if (count < 4 || parts[2] !~ /^(proofs|specs)$/) return
    if (parts[1] == "crate") {
        parts[1] = FILENAME
        sub(/^crates\//, "", parts[1])
        sub(/\/.*/, "", parts[1])
    }
    file = "crates/" parts[1]
    for (i = 2; i < count; i++) file = file "/" parts[i]
    used[file ".antt", parts[count]] = 1
}

FNR == 1 { of = "" }

FILENAME !~ /^crates\// {
    text = $0
    if (FILENAME ~ /[.]md$/) {
        # only what stands between backticks
        count = split($0, quoted, "`")
        text = ""
        for (i = 2; i <= count; i += 2) {
            text = text " " quoted[i]
            if (quoted[i] ~ /^[a-z_]+\/proofs\/[A-Za-z\/]+$/) promised_file["crates/" quoted[i] ".antt"] = 1
        }
    }
    count = split(text, words, /[ ,:;`]+/)
    for (i = 1; i <= count; i++) promised[words[i]] = 1
    next
}

{ gsub(/«|»/, "") }
FILENAME ~ /[.]antt$/ { sub(/(^| )--.*$/, "") }
FILENAME ~ /[.]rt$/ { sub(/\/\/.*$/, "") }
/^ *$/ { next }
/^ *(ghost |pub |unfoldable )*use / {
    note_import($0)
    next
}

FILENAME ~ /[.]antt$/ {
    match($0, /^ */)
    if (/^ *module /) of = ""
    else if ((RLENGTH <= depth || of == "") && (name = declared($0)) != "") {
        of = name
        depth = RLENGTH
        note_mixfix(name)
        files[++number] = FILENAME
        names[number] = name
        public[number] = /^ *((abbrev|unfoldable) )?pub /
    }
}

{
    count = split($0, words, /[][(){};,\\" ]+/)
    for (i = 1; i <= count; i++)
        if (words[i] ~ /::(proofs|specs)::/) note_path(words[i])
        else if (words[i] != "") note_word(words[i])
}

END {
    for (i = 1; i <= number; i++) {
        file = files[i]
        name = names[i]
        if (!public[i] && !private) continue
        if (file ~ /\/proofs\// && (name ~ /_spec$/ || file ~ /\/(Answers|Invariants)[.]antt$/)) continue
        if (used[file, name] || promised[name] || promised_file[file]) continue
        sub(/^crates\//, "", file)
        print file ": " name
    }
}
