# Prints a file of tests with a row for each script NAME.nss: its text and its listing NAME.listing,
# or, where `told` is set, its text and what its play prints, NAME.told, whose first two lines are
# those of two files. A line of each text stands on a line of its own, without the blanks in front.

function put_text(file, passed, line, lines, count, at) {
    count = 0
    while ((getline line < file) > 0) {
        if (passed-- > 0) continue
        sub(/^ +/, "", line)
        gsub(/\\/, "\\\\", line)
        gsub(/"/, "\\\"", line)
        lines[++count] = line
    }
    close(file)
    for (at = 1; at <= count; at++)
        printf "%s%s\\n%s\n", at == 1 ? "        " quote : "          ", lines[at],
            at == count ? "\"," : "\\"
}

BEGIN {
    quote = told ? "\"" : "b\""
    if (told) {
        print "//! Scripts of docs/LANGUAGE.md and what they print, by `docs/language/make`."
        print ""
        print "/// Scripts and all that `run - p` prints, where the play is done."
        print "pub const PLAYS: &[(&str, &str)] = &["
    } else {
        print "//! Scripts of docs/LANGUAGE.md with their listings, by `docs/language/make`."
        print "use crate::compile::{Row, first_other};"
        print "use std::test::*;\n"
        print "const LANGUAGE: &[Row] = &["
    }
    for (at = 1; at < ARGC; at++) {
        name = ARGV[at]
        sub(/\.nss$/, "", name)
        print "    ("
        put_text(name ".nss", 0)
        if (told) put_text(name ".told", 2)
        else put_text(name ".listing", 0)
        print "    ),"
    }
    print "];"
    if (told) exit
    print "\n#[test]"
    print "fn language(rt: HostRuntime) -> Result<(), Fail> {"
    print "    assert_eq!(rt; first_other(rt.alloc(), LANGUAGE)?, LANGUAGE.len());"
    print "    Ok(())"
    print "}"
}
