# crates.txt as an SVG: a frame for each room with its crates inside, and arrows between rooms alone. Plain awk; used by tools/drawing.
#
# A room stands on each room that has a crate which one of its own uses, one layer above the highest of them; rooms of one layer
# stand side by side. An arrow is left out where a longer way says the same. A room's lines are numbered from 1 on, from its bottom;
# crates that stand under no line of it are in line 0, without a label.

BEGIN {
    WIDE = 1040; MARGIN = 20; PAD = 14; TITLE = 34; LABEL = 256; GAP = 36; BESIDE = 24; LANE = 16
    BOX = 28; SPACE = 8; CHAR = 8.45; SIDES = 18
}

/^# == / { rooms++; title[rooms] = before($0); text[rooms] = after($0); next }
/^# -- / { lines[rooms]++; label[rooms, lines[rooms]] = before($0); rule[rooms, lines[rooms]] = after($0); next }
/^#/ || !/:/ { next }

{
    name = $1
    sub(/:$/, "", name)
    first = $2 == "staticlib:" ? 3 : 2 # a static library
    if (!rooms) stop(name " stands in no room")
    home[name] = rooms
    held[rooms, lines[rooms] + 0, ++count[rooms, lines[rooms] + 0]] = name
    for (i = first; i <= NF; i++) use(name, $i)
    listed[name] = 1
}

END {
    if (stopped) exit 1
    for (used in wanted) if (used in home) stop(wanted[used] " uses " used ", which stands after it")
    for (r = 1; r <= rooms; r++) rise(r)
    for (r = 1; r <= rooms; r++) find_arrows(r)
    place_all()
    draw()
}

function stop(why) {
    print "crates.txt: " why > "/dev/stderr"
    stopped = 1
    exit 1
}

# A heading's two parts: '# == title: text'.
function before(heading) { sub(/^# .. /, "", heading); sub(/: .*/, "", heading); return heading }
function after(heading) { return sub(/^[^:]*: /, "", heading) ? heading : "" }

# A crate uses another one. What is not listed by the end is the toolchain's.
function use(name, used) {
    if (!(used in listed)) { wanted[used] = name; return }
    stood_on[used] = 1
    if (home[used] != rooms) uses[rooms, home[used]] = 1
}

# The layer of a room, and the rooms that it reaches by way of another one.
function rise(r,    m, k) {
    layer[r] = 1
    for (m = 1; m < r; m++) if (uses[r, m]) {
        if (layer[m] >= layer[r]) layer[r] = layer[m] + 1
        reaches[r, m] = 1
        for (k = 1; k < m; k++) if (reaches[m, k]) reaches[r, k] = far[r, k] = 1
    }
    beside[layer[r]]++
    if (layer[r] > layers) layers = layer[r]
}

# The arrows down from a room. One that passes a layer goes by a lane of its own, right of all rooms.
function find_arrows(r,    m) {
    for (m = 1; m < r; m++) if (uses[r, m] && !far[r, m]) {
        from[++arrows] = r
        to[arrows] = m
        if (layer[r] - layer[m] > 1) lane[arrows] = ++lanes
    }
}

# The place of each room: layers from the top, rooms of a layer with the same width, as high as the highest of them.
function place_all(    l, r, all, at) {
    all = WIDE - 2 * MARGIN - lanes * LANE
    at = MARGIN
    for (l = layers; l >= 1; l--) {
        tall[l] = 0
        seen = 0
        for (r = 1; r <= rooms; r++) if (layer[r] == l) {
            width[r] = (all - (beside[l] - 1) * BESIDE) / beside[l]
            left[r] = MARGIN + seen++ * (width[r] + BESIDE)
            top[r] = at
            place(r)
            if (height[r] > tall[l]) tall[l] = height[r]
        }
        for (r = 1; r <= rooms; r++) if (layer[r] == l) height[r] = tall[l]
        at += tall[l] + GAP
    }
    bottom = at - GAP + MARGIN
}

# The place of each crate in a room: boxes from the left, and on in a new row where a box has no space left.
function place(r,    line, i, n, x, start) {
    start = left[r] + PAD + (lines[r] ? LABEL : 0)
    at_y = top[r] + TITLE
    for (line = lines[r] + 0; line >= 0; line--) {
        if (!count[r, line]) continue
        line_y[r, line] = at_y
        x = start
        for (i = 1; i <= count[r, line]; i++) {
            n = held[r, line, i]
            if (x > start && x + wide(n) > left[r] + width[r] - PAD) { x = start; at_y += BOX + SPACE }
            box_x[n] = x
            box_y[n] = at_y
            x += wide(n) + SPACE
        }
        at_y += BOX + SPACE
    }
    height[r] = at_y - SPACE + PAD - top[r]
}

function wide(n) { return int(CHAR * length(n) + SIDES) }

function draw(    r, a, n) {
    printf "<svg xmlns=\"http://www.w3.org/2000/svg\" width=\"%d\" height=\"%d\" viewBox=\"0 0 %d %d\" ", WIDE, bottom, WIDE, bottom
    print "role=\"img\" font-family=\"sans-serif\" font-size=\"15\">"
    print "<title>The crates in their rooms</title>"
    print "<desc>A room stands on those that its arrows go down to. Dark crates are used from outside: no crate stands on them.</desc>"
    print "<defs><marker id=\"tip\" markerWidth=\"12\" markerHeight=\"10\" refX=\"11\" refY=\"5\" orient=\"auto\" markerUnits=\"userSpaceOnUse\">"
    print "<path d=\"M0 0L12 5L0 10Z\" fill=\"#5F6B7A\"/></marker></defs>"
    printf "<rect width=\"%d\" height=\"%d\" fill=\"#FFFFFF\"/>\n", WIDE, bottom
    for (r = 1; r <= rooms; r++) frame(r)
    for (a = 1; a <= arrows; a++) arrow(a)
    print "</svg>"
}

function frame(r,    line, i) {
    printf "<rect x=\"%.1f\" y=\"%d\" width=\"%.1f\" height=\"%d\" rx=\"8\" fill=\"#F2F6F9\" stroke=\"#8A97A6\"/>\n", left[r], top[r], width[r], height[r]
    words(left[r] + PAD, top[r] + 23, width[r] - 2 * PAD, "bold", title[r], text[r])
    for (line = 0; line <= lines[r]; line++) {
        if (line && count[r, line]) words(left[r] + PAD, line_y[r, line] + 19, LABEL, "normal", label[r, line], rule[r, line])
        for (i = 1; i <= count[r, line]; i++) box(held[r, line, i])
    }
}

function words(x, y, space, weight, name, more) {
    if (8 * length(name " " more) > space) stop("the heading '" name ": " more "' is too long for its place")
    printf "<text x=\"%.1f\" y=\"%d\" fill=\"#1B1F24\"><tspan font-weight=\"%s\">%s</tspan>", x, y, weight, name
    printf "<tspan dx=\"8\" fill=\"#5F6B7A\">%s</tspan></text>\n", more
}

function box(n,    fill, ink) {
    fill = n in stood_on ? "#D3E5F2" : "#0072B2"
    ink = n in stood_on ? "#1B1F24" : "#FFFFFF"
    printf "<rect x=\"%.1f\" y=\"%d\" width=\"%d\" height=\"%d\" rx=\"5\" fill=\"%s\"/>", box_x[n], box_y[n], wide(n), BOX, fill
    printf "<text x=\"%.1f\" y=\"%d\" font-family=\"monospace\" font-size=\"14\" fill=\"%s\" text-anchor=\"middle\">%s</text>\n", box_x[n] + wide(n) / 2, box_y[n] + 19, ink, n
}

# An arrow between layers that touch goes straight down where one room is above the other, else from corner to corner.
function arrow(a,    u, d, x, low, high, path) {
    u = from[a]
    d = to[a]
    low = most(left[u], left[d])
    high = -most(-left[u] - width[u], -left[d] - width[d])
    if (lane[a]) {
        x = WIDE - MARGIN - (lanes - lane[a]) * LANE
        path = sprintf("M%.1f %dv%dH%.1fV%dH%.1fV%d", left[u] + width[u] - 30, top[u] + tall[layer[u]], GAP / 2, x, top[d] - GAP / 2, left[d] + width[d] - 30, top[d])
    } else if (high > low) path = sprintf("M%.1f %dV%d", (low + high) / 2, top[u] + tall[layer[u]], top[d])
    else path = sprintf("M%.1f %dL%.1f %d", low > left[u] ? high - 30 : low + 30, top[u] + tall[layer[u]], low > left[u] ? low + 30 : high - 30, top[d])
    printf "<path d=\"%s\" fill=\"none\" stroke=\"#5F6B7A\" stroke-width=\"2\" marker-end=\"url(#tip)\"/>\n", path
}

function most(a, b) { return a > b ? a : b }
