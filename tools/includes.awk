# Reads the names of scripts, and then lines of cksum of all sources. Prints a line for each script:
# its name, the words of `made_from`, and each source that it may include, however deep, with its
# sum. A name may be too many, as one in a comment; none is left out.

FILENAME == "scripts" { script[++scripts] = $1; next }

{ sum[$3] = $1 " " $2; source[++sources] = $3; read_names($3) }

# Between `include` and its name may be blanks and line ends. Of a name with an escape, or behind a
# comment, any source may be meant.
function read_names(file,   line, is_open) {
    while ((getline line <file) > 0) {
        if (is_open) line = "include " line
        is_open = 0
        while (match(line, /include[ \t\r\f\v]*/)) {
            line = substr(line, RSTART + RLENGTH)
            if (line == "") is_open = 1
            else if (match(line, /^"[A-Za-z0-9_]+"/))
                named[file, ++names[file]] = tolower(substr(line, 2, RLENGTH - 2)) ".nss"
            else if (line ~ /^["\/]/) names_any[file] = 1
        }
    }
    close(file)
}

function add(file) {
    if (file in found) return
    found[file]
    list[++count] = file
}

function put_sources(file,   at, part) {
    split("", found)
    count = 0
    add(file)
    for (at = 1; at <= count; at++) {
        for (part = 1; part <= names[list[at]]; part++) add(named[list[at], part])
        for (part = 1; list[at] in names_any && part <= sources; part++) add(source[part])
    }
    printf "%s %s", file, made_from
    for (at = 1; at <= count; at++)
        printf " %s %s", list[at], (list[at] in sum) ? sum[list[at]] : "missing"
    print ""
}

END { for (at = 1; at <= scripts; at++) put_sources(script[at]) }
