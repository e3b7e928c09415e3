# Prints docs/LANGUAGE.md, from docs/GRAMMAR.md, the table `constructs` and what the program made of
# each script NAME.nss: NAME.listing, and NAME.told, which begins with a line each on the two files.
# Ends with 1 where a production isn't one of the grammar's, or a listing's places aren't right.

function fail(text) {
    print "language: " text > "/dev/stderr"
    failed = 1
    exit 1
}

# The text in lines of at most 100 columns, all but the first one after this many blanks.
function put_wrapped(text, indent, words, count, at, line, blanks) {
    count = split(text, words, " ")
    blanks = sprintf("%" indent "s", "")
    line = words[1]
    for (at = 2; at <= count; at++) {
        if (length(line " " words[at]) > 100) {
            print line
            line = blanks words[at]
        } else line = line " " words[at]
    }
    print line
}

function squeezed(text) {
    gsub(/ +/, " ", text)
    sub(/^ /, "", text)
    sub(/ $/, "", text)
    return text
}

# How many bytes an instruction takes, by its line in a listing.
function size_of(line, words) {
    split(line, words, " ")
    if (words[1] == "CONST" && words[2] == "05") {
        sub(/^[^"]*"/, "", line)
        if (line ~ /\\/) fail("a string with an escape in a listing")
        return 3 + length(line)
    }
    if (words[1] ~ /^(N?EQUAL)$/ && words[2] == "24") return 4
    if (words[1] ~ /^(CONST|MOVSP|JMP|JSR|JZ|JNZ|INCISP|DECISP|INCIBP|DECIBP)$/) return 6
    if (words[1] ~ /^(CPDOWNSP|CPTOPSP|CPDOWNBP|CPTOPBP|DESTRUCT)$/) return 8
    if (words[1] == "STORE_STATE") return 10
    return words[1] == "ACTION" ? 5 : 2
}

# Reads a listing: its lines with the place of each in front.
function read_listing(name, file, line, place, at, words) {
    file = name ".listing"
    listed = 0
    place = 13
    split("", begins)
    while ((getline line < file) > 0) {
        listed++
        listing[listed] = line
        places[listed] = place
        begins[place] = 1
        place += size_of(line)
    }
    close(file)
    for (at = 1; at <= listed; at++)
        if (listing[at] ~ /@/) {
            split(listing[at], words, "@")
            if (!(words[2] in begins)) fail(name ": no instruction at " words[2])
        }
    file = name ".told"
    getline line < file
    split(line, words, " ")
    if (words[3] != place) fail(name ": the file ends at " words[3] ", and not at " place)
    getline line < file
}

# The script and its listing side by side, and what its play prints.
function put_example(name, file, line, lines, script, first, at, count) {
    read_listing(name)
    file = name ".nss"
    lines = 0
    while ((getline line < file) > 0) script[++lines] = line
    close(file)
    first = name != "main" && listing[1] == "JSR 00 @21" && listing[2] == "RETN 00" ? 3 : 1
    count = listed - first + 1
    print "\n```"
    for (at = 1; at <= lines || at <= count; at++) {
        line = at <= lines ? script[at] : ""
        if (at <= count)
            line = sprintf("%-50s%5d  %s", line, places[first + at - 1], listing[first + at - 1])
        print line
    }
    print ""
    file = name ".told"
    while ((getline line < file) > 0) print line
    close(file)
    print "```"
}

function put_part(key, text) { put_wrapped("- **" key "** " text, 2) }

# What stands of a construct so far.
function put_construct(key, count, at) {
    if (title == "") return
    print "\n### " title "\n"
    put_part("grammar", "level" in part ? levels(part["level"]) : productions(part["grammar"]))
    count = split("types means steps code", keys, " ")
    for (at = 1; at <= count; at++) {
        key = keys[at]
        if (part[key] == "") fail(title ": no line " key)
        put_part(key, part[key])
    }
    put_example(script)
    title = ""
}

function productions(text, words, count, at) {
    count = split(text, words, "`, `")
    for (at = 1; at <= count; at++)
        if (!(words[at] in production)) fail("docs/GRAMMAR.md has no production " words[at])
    return "`" text "`"
}

function levels(text, words, count) {
    count = split(text, words, " to ")
    if (!(words[1] in level) || !(words[count] in level)) fail("no level " text)
    return "`binary`, " (count > 1 ? "levels " : "level ") text
}

FNR == 1 { files++ }

# The productions, an alternative a line, and the levels of operators.
files == 1 && /^```/ { inside = !inside }
files == 1 && inside && /^[a-z]+ += / {
    head = $1
    sub(/^[a-z]+ += /, "")
    production[squeezed(head " = " $0)] = 1
    next
}
files == 1 && inside && /^ +\| / {
    sub(/^ +\| /, "")
    production[squeezed(head " = " $0)] = 1
}
files == 1 && /^\| [0-9]+ \| `/ { level[$2] = 1 }
files == 1 { next }

/^### / {
    put_construct()
    title = substr($0, 5)
    at = match(title, / \| [a-z]+$/)
    if (!at) fail("no script is named in: " $0)
    script = substr(title, at + 3)
    title = substr(title, 1, at - 1)
    key = ""
    split("", part)
    next
}
/^## / {
    put_construct()
    print (begun ? "\n" : "") $0
    begun = 1
    next
}
!begun {
    print
    next
}
/^[a-z]+: / {
    key = substr($1, 1, length($1) - 1)
    if (key == "grammar" && part[key] != "") part[key] = part[key] "`, `"
    part[key] = part[key] substr($0, length($1) + 2)
    next
}
/^  / && key != "" { part[key] = part[key] " " squeezed($0) }
END {
    if (failed) exit 1
    put_construct()
    if (failed) exit 1
}
