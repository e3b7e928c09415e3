# The report of tools/compile_all, which runs it in its room: reads the names of all sources with
# the numbers of their folders, those of the scripts that are unchanged, and those of all scripts.

BEGIN { while ((getline line <"folders") > 0) folder[++folders] = line }

FILENAME == "taken" {
    place[$2] = folder[$1] "/" $2
    code = $2
    sub(/nss$/, "ncs", code)
    place[code] = folder[$1] "/" code
    next
}

FILENAME == "unchanged" { is_unchanged[$1]; unchanged++; next }

$1 in is_unchanged { next }

{
    if ((getline line <("told/" $1)) <= 0) line = 7
    close("told/" $1)
    status = line + 0
    sub(/^[0-9]+ ?/, "", line)
    split(line, words, " ")
    if (status == 0) {
        compiled++
        print $1 >"compiled"
    } else if (words[1] == "refused" && words[2] == $1 && words[5] == "entry") {
        includes++
        print name_of($1) ": an include, as it has no entry"
    } else fail($1)
}

function name_of(file) { return substr(file, 1, length(file) - 4) }

# What is wrong with the header is told once.
function fail(file) {
    failed++
    if (status > worst) worst = status
    if (words[2] == "HEADER") {
        if (is_header_told++) return
        sub(/ HEADER/, "", line)
        print words[1] " " ENVIRON["HEADER"] substr(line, length(words[1]) + 1)
    } else print name_of(file) ": " (line == "" ? "failed with status " status : line)
    tell(file ".err")
}

# A message, whose first line begins with its file.
function tell(file,   line, at, is_later) {
    file = "told/" file
    while ((getline line <file) > 0) {
        at = index(line, ":")
        if (!is_later++ && substr(line, 1, at - 1) in place)
            line = place[substr(line, 1, at - 1)] substr(line, at)
        else if (is_later == 1 && substr(line, 1, at - 1) == "HEADER")
            line = ENVIRON["HEADER"] substr(line, at)
        print line | "cat >&2"
    }
    close(file)
}

END {
    print compiled + 0 " compiled, " unchanged + 0 " unchanged, " failed + 0 " not compiled, " \
        includes + 0 " includes"
    exit worst
}
