# Lists what the crates' src/lib.rt export and no other crate, test or README names, as
# `crate/file: name`; a method is `Type::name`. The input is every .rt file of crates/, then the tests
# and README.md. A function, constant or type counts as used where another crate says `crate::name`, or
# brings it in by `use` and says `name` below. A method counts as used where another crate or README says
# `Type::name` or `.name`. A type counts as used also where its own crate's exported signatures and
# fields say it, and what C programs call where a test or README says it.

# the last word of a path like `gaps::first_gap`
function last(path) {
    sub(/^.*::/, "", path)
    return path
}

# the types that an exported signature, or the fields of an exported type, say
function note_types(line,    words, count, i) {
    count = split(line, words, /[^A-Za-z0-9_]+/)
    for (i = 1; i <= count; i++)
        if (words[i] ~ /^[A-Z]/) holds[crate, words[i]] = holds[crate, words[i]] " " signature
}

# what a word of a line says: a::b::c says a::b and b::c, and x.c says .c
function note_word(word,    parts, part, j) {
    parts = split(word, part, /::|[.]/)
    for (j = 1; j <= parts; j++) {
        if ((FILENAME, part[j]) in brought) named[crate, brought[FILENAME, part[j]]] = 1
        if (j > 1) named[crate, part[j - 1] "::" part[j]] = 1
        if (j > 1) named[crate, "." part[j]] = 1
    }
}

FNR == 1 {
    crate = FILENAME
    sub(/^crates\//, "", crate)
    sub(/\/.*/, "", crate)
    crates[crate] = 1
    library = FILENAME ~ /\/src\/lib[.]rt$/
    type = signature = ""
}

FILENAME !~ /^crates\// {
    count = split($0, words, /[^A-Za-z0-9_:.]+/)
    for (i = 1; i <= count; i++) {
        tested[words[i]] = 1
        if (FILENAME ~ /[.]md$/) note_word(words[i])
    }
    next
}

{ sub(/\/\/.*$/, "") }

# what a `use` line brings in, or exports where `public` is 1; a group in braces is several paths
function note_use(path, public,    head, names, list, count, i) {
    gsub(/[; ]/, "", path)
    if (path ~ /::[{]/) {
        head = names = path
        sub(/[{].*/, "", head)
        sub(/^[^{]*[{]/, "", names)
        sub(/[}].*/, "", names)
        count = split(names, list, ",")
        for (i = 1; i <= count; i++) if (list[i] != "") note_use(head list[i], public)
    } else if (public) {
        if (library) exported[crate, last(path)] = last(path) ~ /^[A-Z][a-z]/ ? "type" : "item"
        named[crate, path] = 1
    } else {
        brought[FILENAME, last(path)] = path
    }
}

/^(ghost |pub )*use / || group != "" {
    group = group == "" ? $0 : group " " $0
    if (group !~ /;/) next
    line = group
    group = ""
    if (line ~ /^pub use /) {
        sub(/^pub use /, "", line)
        note_use(line, 1)
    } else if (line ~ /^use /) {
        sub(/^use /, "", line)
        note_use(line, 0)
    }
    next
}

# what this crate exports
/^}/ { type = signature = "" }
/^impl/ {
    type = $0
    sub(/ *[{].*$/, "", type)
    sub(/<[^>]*>$/, "", type)
    sub(/^.*[ >]/, "", type)
}
/^ *pub (fn|const|struct|enum|extern "C" fn) / {
    name = $0
    sub(/^ *pub (fn|const|struct|enum|extern "C" fn) /, "", name)
    sub(/[^A-Za-z0-9_].*$/, "", name)
    signature = type == "" ? name : type "::" name
    kind = $2 ~ /struct|enum/ ? "type" : $2 == "extern" ? "called" : "item"
    if (type != "" || library) exported[crate, signature] = type == "" ? kind : "method"
    home[crate, signature] = FILENAME
}
signature != "" {
    if ($1 == "ensures") signature = ""
    else note_types($0)
    if (kind != "type" && /[{;] *$/) signature = ""
}

{
    count = split($0, words, /[^A-Za-z0-9_:.]+/)
    for (i = 1; i <= count; i++) note_word(words[i])
}

function by_others(own, what,    other) {
    for (other in crates)
        if (other != own && (other, what) in named) return 1
    return 0
}

# whether the crate's exported signatures or fields, but for the type's own, say this type
function is_held(own, name,    list, count, i) {
    count = split(holds[own, name], list, " ")
    for (i = 1; i <= count; i++)
        if (list[i] != name && list[i] !~ "^" name "::" && (own, list[i]) in exported) return 1
    return 0
}

function is_used(own, name, kind,    of) {
    if (kind == "called") return name in tested
    if (kind == "method") {
        of = name
        sub(/::.*/, "", of)
        return !((own, of) in exported) || by_others(own, name) || by_others(own, "." last(name))
    }
    return by_others(own, own "::" name) || (kind == "type" && is_held(own, name))
}

END {
    for (key in exported) {
        split(key, pair, SUBSEP)
        if (is_used(pair[1], pair[2], exported[key])) continue
        file = home[key]
        sub(/^crates\//, "", file)
        print file ": " pair[2]
    }
}
