# The work of tools/profile_header. The header is split into tokens as the program splits it:
# gap[i] is what stands before token i, blanks and comments. Only tokens are changed, so that all
# else stays as it is, byte for byte.

function tell(line, text) {
    print ENVIRON["NAME"] ":" line ": " text | "cat >&2"
    told++
}

# Tokens.

function add(text, what) {
    token[++count] = text
    kind[count] = what
    gap[count] = between
    line_of[count] = NR
    between = ""
}

# What the line begins with becomes a token or a part of the gap; the rest of the line.
function cut(line,   what) {
    if (match(line, /^[ \t\r\f\v]+/) || match(line, /^\/\/.*/)) {
        between = between substr(line, 1, RLENGTH)
        return substr(line, RLENGTH + 1)
    }
    if (line ~ /^\/\*/) {
        in_comment = NR
        between = between "/*"
        return substr(line, 3)
    }
    if (match(line, /^[A-Za-z_][A-Za-z0-9_]*/))
        what = (substr(line, 1, RLENGTH) in reserved) ? "word" : "name"
    else if (match(line, FLOAT)) what = "float"
    else if (match(line, INT)) what = "int"
    else if (match(line, STRING)) what = "string"
    else if (match(line, SIGN)) what = "sign"
    else {
        if (strange != NR) tell(NR, "a byte that begins no token is a blank here")
        strange = NR
        between = between " "
        return substr(line, 2)
    }
    add(substr(line, 1, RLENGTH), what)
    return substr(line, RLENGTH + 1)
}

function comment(line,   at) {
    at = index(line, "*/")
    if (at) in_comment = 0
    else at = length(line)
    between = between substr(line, 1, at ? at + 1 : 0)
    return substr(line, at + 2)
}

# Values.

# The value of an int in 32 bits, or "" where it is too great.
function int_value(text, sign,   at, value) {
    value = 0
    if (text ~ /^0[xX]/) {
        text = tolower(text)
        for (at = 3; at <= length(text); at++)
            value = value * 16 + index("0123456789abcdef", substr(text, at, 1)) - 1
    } else value = text + 0
    if (value > 4294967295) return ""
    value *= sign
    return "int " (value < 0 ? value + 4294967296 : value)
}

# What a string stands for: a backslash and byte 0 stay escaped.
function string_value(text,   out, escape) {
    text = substr(text, 2, length(text) - 2)
    out = "string "
    while (match(text, /\\(x..|.)/)) {
        escape = tolower(substr(text, RSTART + 1, RLENGTH - 1))
        out = out substr(text, 1, RSTART - 1)
        if (escape == "n") escape = "x0a"
        if (escape in byte) out = out byte[escape]
        else out = out (escape ~ /^.$/ && escape != "\\" ? escape : "\\" escape)
        text = substr(text, RSTART + RLENGTH)
    }
    return out text
}

# The constant that tokens stand for as one of a type, or "" where they are none.
function constant_of(type, from, to) {
    if (type == "int" && to == from + 1 && token[from] == "-" && kind[to] == "int")
        return int_value(token[to], -1)
    if (from != to) return ""
    if ((type, token[from]) in value_of) return value_of[type, token[from]]
    if (type == "int") return kind[from] == "int" ? int_value(token[from], 1) : ""
    if (type == "string") return kind[from] == "string" ? string_value(token[from]) : ""
    return token[from] ~ /^OBJECT_(SELF|INVALID)$/ ? "object " token[from] : ""
}

# The first constant of each name, which lines above it may name.
function look_ahead(   at, to, place) {
    for (at = 1; at + 4 <= count; at++) {
        if (!has_value(token[at]) || token[at + 2] != "=") continue
        to = token[at + 4] == ";" ? at + 3 : token[at + 5] == ";" ? at + 4 : 0
        place = token[at] SUBSEP token[at + 1]
        if (!to || (place in later) || constant_of(token[at], at + 3, to) == "") continue
        later[place] = shown(at + 3, to)
        later_value[place] = constant_of(token[at], at + 3, to)
    }
}

# The tokens as a text of one line.
function shown(from, to,   text) {
    text = token[from]
    while (++from <= to) text = text (gap[from] == "" ? "" : " ") token[from]
    return text
}

function replace(from, to, text) {
    token[from] = text
    clear(from + 1, to)
}

function clear(from, to) {
    for (; from <= to; from++) token[from] = gap[from] = ""
}

function put(from, to,   text) {
    text = token[from]
    while (++from <= to) text = text gap[from] token[from]
    printf "%s", text
}

# Prints tokens as a comment, line by line. What follows begins a line where it must.
function take_out(from, to, why,   text, rest) {
    tell(line_of[from], why ": taken out")
    outs++
    rest = gap[to + 1]
    if (to < count && rest !~ /\n/) rest = "more"
    sub(/\n.*/, "", rest)
    text = token[from]
    while (++from <= to) text = text gap[from] token[from]
    gsub(/\n/, "\n// ", text)
    printf "// %s%s", text, rest ~ /^[ \t\r\f\v]*(\/\/.*)?$/ ? "" : "\n"
}

# Types.

function is_type(word) { return (word in types) || (word in engine_types) }

# Whether a script can name a constant of the type, or give one as a value.
function has_value(type) { return type == "int" || type == "string" || type == "object" }

# Left out are all types but those of the engine that scripts can use, whatever a game adds.
function is_left_out(type) { return !(type in usable) }

# Where things end.

# Where a declaration ends that may have any form: at a `;`, a body, or before what can't be in it.
# The two parameters without a value tell which.
function any_end(at,   from, depth) {
    has_body = is_open = 0
    for (from = at; at <= count; at++) {
        if (token[at] == "#" && at > from && line_of[at] > line_of[at - 1]) break
        if (token[at] == ";") return at
        if (token[at] == "(") depth++
        else if (token[at] == ")") depth--
        else if (token[at] == "{" && depth <= 0) return body_end(at)
    }
    is_open = 1
    return at - 1
}

function body_end(at,   depth) {
    has_body = 1
    for (depth = 0; at <= count; at++) {
        if (token[at] == "{") depth++
        else if (token[at] == "}" && !--depth) return token[at + 1] == ";" ? at + 1 : at
    }
    is_open = 1
    return count
}

# Where a value ends whose type is left out: before the first `,`, `)` or `;` outside brackets.
function value_end(at,   depth) {
    for (depth = 0; at <= count; at++) {
        if (!depth && token[at] ~ /^[,);]$/) break
        if (token[at] ~ /^[([{]$/) depth++
        else if (depth && token[at] ~ /^[])}]$/) depth--
    }
    return at
}

# The last token of the directive's line.
function line_end(at) {
    while (at < count && line_of[at + 1] == line_of[at]) at++
    return at
}

function begins_declaration(at) {
    return at > count || token[at] == "#" || token[at] == "const" || \
        (is_type(token[at]) && kind[at + 1] == "name")
}

# Declarations: each of these functions gives the last token of what it did.

# `#define`, `#include` and whatever else begins with a #. A define of a name alone takes the next
# line's first word as its value where the lines behind it can be read so.
function directive(at) {
    if (token[at + 1] != "define") {
        take_out(at, line_end(at), "a directive that headers haven't")
        return line_end(at)
    }
    if (kind[at + 2] != "name" || kind[at + 3] !~ /^(name|word|int)$/ || \
        (kind[at + 3] == "int" && int_value(token[at + 3], 1) == "") || \
        (!begins_declaration(at + 4) && line_end(at) != at + 3)) {
        take_out(at, line_end(at), "a define of another form than a name and a name or int")
        return line_end(at)
    }
    if (token[at + 2] ~ /^ENGINE_STRUCTURE_[0-9]+$/ && kind[at + 3] != "int" && \
        !structure(at, substr(token[at + 2], 18), token[at + 3])) return at + 3
    put(at, at + 3)
    return at + 3
}

# A define of an engine structure; 0 where it was taken out.
function structure(at, digits, name) {
    if (name == "effect" || name == "event") {
        if (length(digits) > 1 || digits == (name == "event")) return 1
        take_out(at, at + 3, name " has another number here, and needs no define")
        return 0
    }
    if (name in reserved) return 1
    engine_types[name]
    if (length(digits) == 1 && digits > 1) return 1
    tell(line_of[at], "structure " digits " is 9 here, so that " name " names a type")
    token[at + 2] = "ENGINE_STRUCTURE_9"
    return 1
}

function declaration(at,   from, end, why, is_const) {
    from = at
    end = any_end(at)
    is_const = token[at] == "const"
    at += is_const
    if (kind[at] !~ /^(name|word)$/ || kind[at + 1] !~ /^(name|word)$/)
        why = "neither a constant nor a function"
    else if (kind[at + 1] == "word") why = token[at + 1] " is a word and no name"
    else if (!is_type(token[at])) why = "no define names the type " token[at]
    else if (token[at + 2] == "=") {
        if (!has_value(token[at])) return forgotten_constant(from, at, end)
        if (!has_body && !is_open) return constant(from, at, end)
    } else if (token[at + 2] == "(" && !is_const) {
        if (read_parameters(at + 3)) return function_line(at)
        why = "the parameters of " token[at + 1] " have no form of a header"
    } else why = "neither a constant with a value nor a function"
    if (has_body) why = "a body or a struct, which headers haven't"
    if (is_open) why = "a declaration without an end"
    take_out(from, end, why)
    return end
}

# A constant whose value is any tokens, and which no script can use.
function forgotten_constant(from, at, end,   to) {
    to = value_end(at + 3)
    if (token[to] != ";") {
        take_out(from, end, is_open ? "a declaration without an end" : \
            "the value of " token[at + 1] " ends early")
        return end
    }
    if ((token[at + 1] in constants) || (token[at + 1] in functions))
        take_out(from, to, token[at + 1] " was declared before")
    else {
        put(from, to)
        if (is_left_out(token[at])) forgotten++
    }
    return to
}

function constant(from, at, end,   type, name, value, place) {
    type = token[at]
    name = token[at + 1]
    value = constant_of(type, at + 3, end - 1)
    place = type SUBSEP token[at + 3]
    if (value == "" && end == at + 4 && (place in later)) {
        tell(line_of[from], name " is " later[place] ", the value of " token[at + 3] \
            ", which stands below")
        token[at + 3] = later[place]
        value = later_value[place]
    }
    if (value == "") take_out(from, end, "the value of " name " is no constant of type " type)
    else if (((name in constants) && constants[name] != value) || (name in functions))
        take_out(from, end, name " was declared before")
    else {
        constants[name] = value_of[type, name] = value
        put(from, end)
    }
    return end
}

# Reads parameters from the first one on: their places and types, and where the declaration ends.
# Whether they have the form of a list of parameters.
function read_parameters(at) {
    for (parts = 0; token[at] != ")" || parts; at++) {
        first[++parts] = at
        part_type[parts] = token[at]
        part_name[parts] = "parameter " parts
        if (kind[at] !~ /^(name|word)$/) return 0
        if (kind[++at] == "name") part_name[parts] = token[at++]
        equals[parts] = token[at] == "=" ? at : 0
        if (equals[parts]) at = value_end(at + 1)
        last[parts] = at - 1
        if (equals[parts] == last[parts] && has_value(part_type[parts])) return 0
        if (token[at] == ")") break
        if (token[at] != ",") return 0
    }
    end_of_function = at + 1
    return token[at + 1] == ";"
}

# A default that is no constant of its parameter's type.
function mend_default(part, line,   type, from, text, place) {
    type = part_type[part]
    from = equals[part] + 1
    if (from == 1 || !has_value(type) || constant_of(type, from, last[part]) != "") return
    text = shown(from, last[part])
    place = type SUBSEP text
    if (type == "object") {
        replace(from, last[part], "OBJECT_INVALID")
        tell(line, "the default " text " of " part_name[part] " is no object: OBJECT_INVALID")
    } else if (place in later) {
        replace(from, last[part], later[place])
        tell(line, "the default " text " stands below: " later[place])
    } else {
        clear(equals[part], last[part])
        tell(line, "the default " text " of " part_name[part] " is no constant of type " type \
            ": scripts have to give it")
    }
}

# How many of the parameters stay: those from one on that only a value of a type that is left out
# could be given to go, where all of them have defaults, and those that the engine's own routine of
# this name hasn't.
function kept_parameters(name, result, line,   at, keep, wanted, own_count, fits) {
    keep = parts
    for (at = 1; at <= parts && !is_left_out(part_type[at]); at++) { }
    if (at <= parts && !is_left_out(result) && have_defaults(at, parts)) {
        keep = at - 1
        tell(line, name " is without its optional " told_parts(at, parts) \
            ", which scripts couldn't give")
    }
    if (!(name in own_types)) return keep
    own_count = split(own_types[name], wanted, " ") - 1
    fits = wanted[1] == result && own_count < keep && have_defaults(own_count + 1, keep)
    for (at = 1; fits && at <= own_count; at++) fits = wanted[at + 1] == part_type[at]
    if (!fits) return keep
    tell(line, name " is without its optional " told_parts(own_count + 1, keep) \
        ", so that it is the engine's own")
    return own_count
}

function have_defaults(at, to) {
    for (; at <= to; at++) if (!equals[at]) return 0
    return 1
}

function told_parts(at, to,   text) {
    for (; at <= to; at++) text = text (text == "" ? "" : ", ") part_name[at]
    return text
}

# Seconds are whole milliseconds in three routines.
function mend_seconds(name, line,   at) {
    at = name == "ApplyEffectToObject" ? 4 : 1
    if ((name != "DelayCommand" && name != "ActionWait" && at == 1) || parts < at || \
        part_type[at] != "float") return
    tell(line, name " takes its time as an int of milliseconds, not as seconds")
    part_type[at] = "int"
    token[first[at]] = "int"
    if (kind[first[at] + 1] == "name") token[first[at] + 1] = "nMilliseconds"
    if (!equals[at]) return
    if (equals[at] == last[at]) {
        # A value of a type that is left out may have no token at all.
        clear(equals[at], last[at])
        equals[at] = 0
        return
    }
    replace(equals[at] + 1, last[at], int(1000 * token[equals[at] + 1] + 0.5))
    kind[equals[at] + 1] = "int"
    last[at] = equals[at] + 1
}

function function_line(at,   line, name, result, end, part, keep, types_) {
    line = line_of[at]
    result = token[at]
    name = token[at + 1]
    end = end_of_function
    if ((name in constants) || (name in functions) || parts > 255) {
        take_out(at, end, parts > 255 ? name " has more than 255 parameters" : \
            name " was declared before")
        return end
    }
    mend_seconds(name, line)
    keep = kept_parameters(name, result, line)
    for (part = 1; part <= keep; part++) if (!is_type(part_type[part])) {
        take_out(at, end, "no define names the type " part_type[part])
        return end
    }
    types_ = result
    for (part = 1; part <= keep; part++) {
        mend_default(part, line)
        types_ = types_ " " part_type[part]
    }
    # With the first parameter that goes, the comma before it.
    if (keep < parts) clear(keep ? last[keep] + 1 : first[1], last[parts])
    functions[name]
    function_count++
    count_callable(name, types_, line)
    put(at, end)
    return end
}

function count_callable(name, types_, line,   words, count_, at) {
    if ((name in own_types) && own_types[name] != types_)
        tell(line, name " isn't the engine's own, whose types are " own_types[name])
    if ((name in own_types) && own_types[name] == types_) return
    count_ = split(types_, words, " ")
    for (at = 1; at <= count_; at++) if (is_left_out(words[at]) || words[at] == "action") {
        uncallable++
        return
    }
}

function own(name, types_) { own_types[name] = types_ }

function words_of(text, set,   list, at) {
    for (at = split(text, list, " "); at > 0; at--) set[list[at]]
}

BEGIN {
    FLOAT = "^([0-9]+[.][0-9]*f?|[.][0-9]+f?|[0-9]+f)"
    INT = "^(0[xX][0-9A-Fa-f]+|[0-9]+)"
    STRING = "^\"([^\"\\\\]|\\\\[^x]|\\\\x[0-9A-Fa-f][0-9A-Fa-f])*\""
    SIGN = "^(>>>=|<<=|>>=|>>>|<<|>>|[|][|]|&&|[+][+]|--|[-=!<>+*/%&|^]=|" \
        "[][(){},;:?#|&^=!<>+*/%~.-])"
    words_of("void int string object effect event action", usable)
    words_of("void int float string object vector location effect event talent itemproperty " \
        "action", types)
    for (at in types) reserved[at]
    words_of("struct const if else while do for switch case default break continue return " \
        "OBJECT_SELF OBJECT_INVALID", reserved)
    for (at = 1; at < 256; at++) byte[sprintf("x%02x", at)] = sprintf("%c", at)
    byte["x5c"] = "\\\\"
    # The engine's own routines: result, then parameters.
    own("Random", "int int"); own("PrintString", "void string"); own("PrintInteger", "void int")
    own("PrintObject", "void object"); own("AssignCommand", "void object action")
    own("DelayCommand", "void int action"); own("ExecuteScript", "void string object")
    own("ClearAllActions", "void int"); own("ActionDoCommand", "void action")
    own("ActionWait", "void int"); own("ActionSpeakString", "void string int")
    own("SpeakString", "void string int"); own("GetObjectByTag", "object string int")
    own("GetTag", "string object"); own("GetIsObjectValid", "int object")
    own("GetLocalInt", "int object string"); own("SetLocalInt", "void object string int")
    own("GetLocalString", "string object string")
    own("SetLocalString", "void object string string")
    own("DeleteLocalInt", "void object string"); own("DeleteLocalString", "void object string")
    own("ApplyEffectToObject", "void int effect object int")
    own("RemoveEffect", "void object effect"); own("abs", "int int")
    own("IntToString", "string int"); own("StringToInt", "int string")
    own("IntToHexString", "string int"); own("GetStringLength", "int string")
    own("GetStringLeft", "string string int"); own("GetStringRight", "string string int")
    own("GetSubString", "string string int int"); own("InsertString", "string string string int")
    own("Get2DAString", "string string string int"); own("EventUserDefined", "event int")
    own("SignalEvent", "void object event"); own("GetUserDefinedEventNumber", "int")
}

NR == 1 && /^\357\273\277/ {
    tell(1, "a byte order mark: taken out")
    $0 = substr($0, 4)
}

{
    line = $0
    while (line != "") line = in_comment ? comment(line) : cut(line)
    between = between "\n"
}

END {
    if (in_comment) {
        tell(in_comment, "the comment isn't closed: it ends with the file")
        sub(/\n$/, "*/\n", between)
    }
    gap[count + 1] = between
    look_ahead()
    for (at = 1; at <= count; at++) {
        printf "%s", gap[at]
        if (token[at] == "#") at = directive(at)
        else if (token[at] == ";") tell(line_of[at], "a `;` alone: taken out")
        else at = declaration(at)
    }
    printf "%s", between
    print "profile_header: " told + 0 " changes, " outs + 0 " of them taken out; of " \
        function_count + 0 " functions " uncallable + 0 " can't be called, and " forgotten + 0 \
        " constants can't be used: their types are left out" | "cat >&2"
}
