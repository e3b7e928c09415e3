# The drawing of tools/timeline: reads a trace; of the environment the text of a tree in the file
# TREE, the times FROM and TO, and the number of an OBJECT; writes an SVG.

function say(text) { print "timeline: " text | "cat >&2" }

function escaped(text) {
    gsub(/[^ -~]/, "?", text)
    gsub(/&/, "\\&amp;", text)
    gsub(/</, "\\&lt;", text)
    gsub(/>/, "\\&gt;", text)
    return text
}

function shortened(text, length_) {
    return length(text) > length_ ? substr(text, 1, length_ - 2) ".." : text
}

# A text of a tree without its quotes, in which no quote stands.
function unquoted(text) {
    sub(/^[^"]*"/, "", text)
    sub(/".*$/, "", text)
    return text
}

# The tags of the area's objects, which are the members of five lists, in this order.
function read_tags(   names, size, at, line, list, members, member, tag) {
    size = split("Creature List,Door List,Placeable List,TriggerList,WaypointList", names, ",")
    while ((getline line <ENVIRON["TREE"]) > 0) {
        if (line ~ /^  [^ ]/) {
            list = 0
            for (at = 1; at <= size; at++)
                if (index(line, "  " names[at] " list ") == 1) list = at
        } else if (list && line ~ /^    struct /) members[list]++
        else if (list && line ~ /^      Tag (string|resref) /)
            tag[list, members[list]] = unquoted(line)
    }
    for (list = 1; list <= size; list++)
        for (member = 1; member <= members[list]; member++) tags[++objects] = tag[list, member]
}

function kind_of(word) {
    if (word == "apply" || word == "remove" || word == "expire") return "effect"
    if (word == "fault" || word == "noscript" || word == "deep") return "fault"
    return (word == "speak" || word == "print" || word == "call") ? word : ""
}

BEGIN {
    WIDTH = 1000; HEIGHT = 4000; BYTES = 2000000
    MARGIN = 24; LANE = 15; LANES = 12; LETTER = 6.1; SHOWN = 44; TITLE = 200
    # A mark's room before and behind its place, and a box's behind it.
    BEFORE = 6; BEHIND = 7; BOX = 22
    read_tags()
    first = ENVIRON["FROM"] + 0
}

/^[0-9]+ #[0-9]+ [a-z]+ / && length($2) < 9 && kind_of($3) != "" {
    if (ENVIRON["OBJECT"] != "" && substr($2, 2) + 0 != ENVIRON["OBJECT"]) next
    clock[++count] = $1 + 0
    object[count] = substr($2, 2) + 0
    kind[count] = kind_of($3)
    title[count] = shortened($0, TITLE)
    said[count] = $0
    sub(/^[0-9]+ #[0-9]+ (speak |print )?/, "", said[count])
    said[count] = shortened(said[count], SHOWN)
    if (clock[count] > last) last = clock[count]
    # An effect that lasts is a bar, up to the line that ends the first equal one.
    effect = object[count] " " $NF
    if ($3 == "apply" && ($4 == 1 || $4 == 2)) {
        kind[count] = "bar"
        begun[effect, ++applied[effect]] = count
    } else if ($3 != "apply" && kind[count] == "effect" && ended[effect] < applied[effect]) {
        end_of[begun[effect, ++ended[effect]]] = count
        kind[count] = "end"
    }
    next
}

/^end (done|instructions|entries) clock [0-9]+ / {
    if ($4 + 0 > last) last = $4 + 0
    how = $0
    next
}

/^(effect|queue|due) / || $0 == "" { next }

{ strange++ }

# What is drawn: the lines between the two times, and the effects that last there.
function choose(   at) {
    for (at = 1; at <= count; at++) {
        if (kind[at] == "end" || clock[at] > last) continue
        if (kind[at] == "bar" ? (at in end_of) && clock[end_of[at]] < first : clock[at] < first)
            continue
        mark[++marks] = at
        if (object[at] > greatest) greatest = object[at]
        has_row[object[at]]
    }
    for (at = 0; at <= greatest; at++) if (at in has_row) rank[at] = ranks++
}

function x_of(at) {
    if (at < first) return left
    if (at > last) return WIDTH - MARGIN
    return left + (WIDTH - left - MARGIN) * (at - first) / (last - first)
}

# Places.

function name_rows(   at, longest, row) {
    split("", name)
    for (at = 0; at <= greatest; at++) if (at in has_row) {
        row = int(rank[at] / group)
        if (!(row in name)) name[row] = at ? "#" at " " tags[at] : "no object"
        else {
            sub(/ .*/, "", name[row])
            name[row] = name[row] " to #" at
        }
    }
    for (row in name) {
        name[row] = shortened(name[row], 24)
        if (length(name[row]) > longest) longest = length(name[row])
    }
    left = 28 + longest * LETTER * 1.25
}

function has_text(at) { return kind[at] ~ /^(speak|print|fault)$/ }

function text_width(at) { return length(said[at]) * LETTER }

# The first of a row's lanes that is free from a place on; -1 where none is.
function free_lane(row, begin, lanes_,   lane_) {
    for (lane_ = 0; lane_ < lanes_; lane_++)
        if (!((row, lane_) in taken) || taken[row, lane_] <= begin) return lane_
    return -1
}

# Places a mark in a lane, up to an end. The one before it there has room for its text up to here.
function take(at, row, lane_, begin, end) {
    if ((row, lane_) in latest) room[latest[row, lane_]] = begin
    latest[row, lane_] = at
    lane[at] = lane_
    number[at] = 1
    taken[row, lane_] = end
    if (lane_ >= lanes[row]) lanes[row] = lane_ + 1
}

# A text that would pass the right edge stands before its mark. Bars leave half the lanes to others,
# and all leave the last one.
function place(at,   row, x, begin, end, wide, free, lanes_) {
    row = int(rank[object[at]] / group)
    lanes_ = kind[at] == "bar" ? int(most_lanes / 2) : most_lanes - 1
    x = x_of(clock[at])
    begin = x - BEFORE
    end = x + BEHIND
    if (kind[at] == "bar") {
        end = until[at] = (at in end_of) ? x_of(clock[end_of[at]]) : WIDTH - MARGIN
        if (end < x + 3) end = until[at] = x + 3
    } else if (texts_first && has_text(at)) {
        wide = 12 + text_width(at)
        is_before[at] = x + wide > WIDTH
        free = free_lane(row, is_before[at] ? x - wide : begin, lanes_)
        if (free >= 0) {
            take(at, row, free, begin, is_before[at] ? end : x + wide + 2)
            return
        }
    }
    is_before[at] = 0
    free = free_lane(row, begin, lanes_)
    if (free >= 0) take(at, row, free, begin, end)
    else place_last(at, row, begin, x + BOX)
}

# In the last lane a bar is a mark, and what would cover a mark joins it.
function place_last(at, row, begin, end,   into) {
    until[at] = 0
    if (!((row, most_lanes - 1) in taken) || taken[row, most_lanes - 1] <= begin) {
        take(at, row, most_lanes - 1, begin, end)
        return
    }
    into = latest[row, most_lanes - 1]
    number[into]++
    number[at] = 0
    joined++
    ends_with[into] = at
    if (kind[at] == "fault") has_fault[into]
}

function place_marks(   at, row) {
    split("", taken); split("", latest); split("", room); split("", lanes); split("", top)
    split("", has_fault)
    joined = 0
    name_rows()
    for (at = 1; at <= marks && !(texts_first && joined); at++) place(mark[at])
    bottom = 34
    for (row = 0; row * group < ranks; row++) {
        top[row] = bottom
        bottom += row_height(row)
    }
}

function row_height(row) { return lanes[row] * LANE + 12 }

# The picture, in lines that are kept until their size is known.

function put(text) {
    picture[++lines] = text
    bytes += length(text) + 1
}

function shape(kind, x, y) {
    if (kind == "speak")
        return sprintf("<circle cx='%.1f' cy='%.1f' r='4.5' fill='#1f5fa8'/>", x, y)
    if (kind == "print")
        return sprintf("<path d='M%.1f %.1fh7v7h-7z' fill='#555'/>", x - 3.5, y - 3.5)
    if (kind == "call")
        return sprintf("<path d='M%.1f %.1fl5 5l-5 5l-5 -5z' fill='#fff' stroke='#2b7a3d' " \
            "stroke-width='1.5'/>", x, y - 5)
    if (kind == "effect" || kind == "bar")
        return sprintf("<path d='M%.1f %.1fl5 9h-10z' fill='#c77700'/>", x, y - 5)
    return sprintf("<path d='M%.1f %.1fl8 8m0 -8l-8 8' stroke='#b00020' stroke-width='2.5'/>", \
        x - 4, y - 4)
}

function bar(x, end, y) {
    return sprintf("<rect x='%.1f' y='%.1f' width='%.1f' height='10' rx='2' fill='#f0c27a' " \
        "stroke='#c77700'/>", x, y - 5, end - x)
}

function short_number(size) {
    return size > 999999 ? int(size / 1000000) "M" : size > 9999 ? int(size / 1000) "k" : size
}

# A box with the number of its lines, red where a fault is among them.
function box(x, y, size, is_red) {
    return sprintf("<rect x='%.1f' y='%.1f' width='26' height='11' fill='#fff' stroke='%s'/>", \
        x - 5, y - 5.5, is_red ? "#b00020" : "#777") \
        words(x + 8, y, size, " text-anchor='middle' font-size='9'")
}

function words(x, y, text, more) {
    return sprintf("<text x='%.1f' y='%.1f'%s>%s</text>", x, y + 3.5, more, escaped(text))
}

function titled(text, inner) { return "<g><title>" escaped(text) "</title>" inner "</g>" }

function band(y, height, color) {
    put(sprintf("<rect y='%d' width='%d' height='%d' fill='%s'/>", y, WIDTH, height, color))
}

function clock_text(at,   text) {
    if (last < 1000) return at " ms"
    text = sprintf("%.3f", at / 1000)
    sub(/0+$/, "", text)
    sub(/\.$/, "", text)
    return text " s"
}

# The time between two ticks: 1, 2 or 5 times a power of ten, so that there are at most 12 steps.
function tick(   step, at) {
    step = 1
    for (at = 0; (last - first) / step > 12; at++) step *= (at % 3 == 1) ? 2.5 : 2
    return step
}

function draw_rows(   row) {
    for (row = 0; row * group < ranks; row++) {
        if (row % 2 == 0) band(top[row], row_height(row), "#f4f4f4")
        put(words(10, top[row] + 13.5, name[row], " font-weight='bold' font-size='11'"))
    }
}

function draw_ticks(   step, at, x) {
    step = tick()
    for (at = int((first + step - 1) / step); at * step <= last; at++) {
        x = x_of(at * step)
        put(sprintf("<path d='M%.1f 26V%d' stroke='#ccc'/>", x, bottom))
        put(words(x, 16, clock_text(at * step), " text-anchor='middle' fill='#333'"))
    }
}

function draw_mark(at,   x, y, inner, end) {
    x = x_of(clock[at])
    y = top[int(rank[object[at]] / group)] + 6 + (lane[at] + 0.5) * LANE
    if (number[at] > 1) {
        put(titled(number[at] " lines: " title[at] " -- " title[ends_with[at]], \
            box(x, y, short_number(number[at]), (at in has_fault) || kind[at] == "fault")))
        return
    }
    end = ""
    if (kind[at] == "bar") end = " -- " ((at in end_of) ? title[end_of[at]] : "stands at the end")
    if (until[at]) inner = bar(x, until[at], y)
    else {
        inner = shape(kind[at], x, y)
        if (has_text(at) && is_before[at])
            inner = inner words(x - 8, y, said[at], " text-anchor='end'")
        else if (has_text(at) && x + 10 + text_width(at) <= ((at in room) ? room[at] : WIDTH))
            inner = inner words(x + 8, y, said[at], "")
    }
    put(titled(title[at] end, inner))
}

function draw_legend(x, y,   kinds, meanings, at) {
    split("speak,print,call,effect,fault", kinds, ",")
    split("speaks,prints,calls the engine,an effect at once,a fault", meanings, ",")
    for (at = 1; at <= 5; at++) {
        put(shape(kinds[at], x, y) words(x + 9, y, meanings[at], ""))
        x += 40 + length(meanings[at]) * LETTER
    }
    put(bar(x, x + 24, y) words(x + 30, y, "an effect that lasts", ""))
    x += 60 + 20 * LETTER
    if (joined) put(box(x, y, "N", 0) words(x + 26, y, "N lines, too close", ""))
}

function draw(   at) {
    lines = bytes = 0
    place_marks()
    if (bottom + 46 > HEIGHT || (texts_first && joined)) return 0
    put(sprintf("<svg xmlns='http://www.w3.org/2000/svg' viewBox='0 0 %d %d' width='%d' " \
        "height='%d' font-family='DejaVu Sans, Verdana, sans-serif' font-size='10'>", \
        WIDTH, bottom + 46, WIDTH, bottom + 46))
    put("<title>" (how == "" ? "a play" : how) "</title>")
    band(0, bottom + 46, "#fff")
    draw_rows()
    draw_ticks()
    for (at = 1; at <= marks && bytes <= BYTES; at++)
        if (number[mark[at]]) draw_mark(mark[at])
    draw_legend(left, bottom + 26)
    put("</svg>")
    return bytes <= BYTES
}

# Each text in a lane that is free for it, where all marks have their place so. Else texts where
# marks leave room; fewer lanes, and more objects in a row, until it is small enough.
function draw_small() {
    group = 1
    most_lanes = LANES
    texts_first = 1
    if (draw()) return
    texts_first = 0
    while (!draw()) {
        if (most_lanes > 1) most_lanes = int(most_lanes / 2)
        else group *= 2
    }
}

END {
    if (strange) say(strange " lines are no lines of a trace")
    if (ENVIRON["TO"] != "") last = ENVIRON["TO"] + 0
    if (last <= first) last = first + 1
    choose()
    if (!marks) { say("there is no line of a trace to be drawn"); exit 1 }
    draw_small()
    if (joined) say(marks " marks are drawn as " marks - joined \
        ": boxes have the number of those that would cover one another")
    if (group > 1) say("each row has up to " group " objects, of " ranks)
    for (at = 1; at <= lines; at++) print picture[at]
}
