# Makes a FIG 3.2 drawing plain, so that figgroup can import it, or take it where its figures have names.
# Outlines, lines and curves become filled polygons. What figgroup does not hold is changed or left out, and told on
# standard error with its line.
#
#     awk -f plain.awk < yours.fig > plain.fig
#     awk -v groups=FILE -f plain.awk < yours.fig > plain.fig
#
# The second writes into FILE a line `NAME FIRST LAST` for each object that became several figures: those from the
# FIRST to the LAST of plain.fig, counted from 1. NAME has its kind and line, as box-12.

BEGIN {
    # The colours 0 to 31 as xfig 3.2.8b shows them.
    split("000000 0000ff 00ff00 00ffff ff0000 ff00ff ffff00 ffffff" \
        " 000090 0000b0 0000d0 87ceff 009000 00b000 00d000 009090 00b0b0 00d0d0" \
        " 900000 b00000 d00000 900090 b000b0 d000d0 803000 a04000 c06000" \
        " ff8080 ffa0a0 ffc0c0 ffe0e0 ffd700", palette, " ")
    for (i = 0; i < 32; i++) value[i] = palette[i + 1]
    for (i = 0; i < 8; i++) number[value[i]] = i
    value[-1] = value[0]
    # The kinds of objects by their code and sub type.
    split("1 1 ellipse 1 2 ellipse 1 3 circle 1 4 circle 2 1 line 2 2 box 2 3 polygon 2 4 box 2 5 picture" \
        " 3 0 spline 3 1 spline 3 2 spline 3 3 spline 3 4 spline 3 5 spline 5 1 arc 5 2 arc", words, " ")
    for (i = 1; i in words; i += 3) kinds[words[i], words[i + 1]] = words[i + 2]
    level = 0  # of compounds
    most_figures = 1000  # in a drawing
    most_corners = 64  # of a polygon
    most_segments = 31  # of a line in one polygon, which has two corners at each end of each
    most_coordinate = 1000000
    unit = 15  # of the thickness of lines, and a pixel of xfig
    pi = 3.14159265358979
}

# The header: the first line, seven lines of any text, and the resolution. Comments stand before what they belong to.

{ sub(/\r$/, "") }

NR == 1 {
    if ($0 !~ /^#FIG 3\.2/) refuse(1, "no FIG 3.2: open it in xfig, and save it anew")
    head[++heads] = "#FIG 3.2"
    next
}

in_text { in_text = !/\\001$/; next }

/^#/ { comment[++comments] = $0; next }

header < 7 { head[++heads] = $0; header++; next }

header == 7 {
    if ($1 != 1200 || $2 != 2) refuse(NR, "resolution " $0 ": open it in xfig, and save it anew")
    for (i = 1; i <= comments; i++) head[++heads] = comment[i]
    head[++heads] = "1200 2"
    comments = 0
    header++
    next
}

# A text's string may have several lines, and a picture's name blanks.

count == 0 && $1 == 4 {
    line = NR
    in_text = !/\\001$/
    kind = "text"; x = $12; y = $13
    leave_out("")
    next
}

count == 16 && field[1] == 2 && field[2] == 5 && !named { named = 1; next }

# The fields of an object stand on one or more lines.

NF {
    if (count == 0) line = NR
    for (i = 1; i <= NF; i++) field[++count] = $i
    wanted = fields_wanted()
    if (count > wanted) refuse(line, "an object of too many fields")
    if (count == wanted) {
        add_object()
        count = named = 0
        comments = kept_comments
    }
}

END {
    if (refused) exit 1
    if (header < 8) refuse(NR, "the text ends within the header")
    if (count || in_text) refuse(line, "the text ends within this object")
    while (level >= 0) end_compound()
    if (groups != "") printf "" > groups
    for (i = 1; i <= heads; i++) print head[i]
    for (i = 32; i < 544; i++) if (i in value) print "0 " i " #" value[i]
    for (i = first_of[-1, 1]; i; i = next_of[i]) write_object(i)
    told("plain: kept " kept + 0 (written == kept ? "" : " as " written " figures") ", left out " left + 0)
}

function write_object(o,    i) {
    for (i = first_comment[o]; i <= last_comment[o]; i++) print comment[i]
    for (i = first_figure[o]; i <= last_figure[o]; i++) printf "%s", figure[i]
    i = last_figure[o] - first_figure[o] + 1
    if (groups != "" && i > 1) print name[o], written + 1, written + i > groups
    written += i
}

function told(words) {
    gsub(/[^ -~]/, "?", words)
    print words > "/dev/stderr"
}

function refuse(at, words) {
    told("plain: line " at ": " words)
    refused = 1
    exit 1
}

function leave_out(why) {
    told("plain: line " line ": " kind " at " x "," y ": left out" why)
    left++
    figures = kept_figures
    comments = kept_comments
}

function change(what) { if (index(changes, what) == 0) changes = changes (changes == "" ? "" : "; ") what }

# Fields of objects.

# How many fields the object has, as far as those that came say.
function fields_wanted() {
    if (field[1] == 0) return 3
    if (field[1] == 1) return 20
    if (field[1] == 2) return count < 16 ? 16 : 16 + arrows(14) + 2 * count_of(16)
    if (field[1] == 3) return count < 14 ? 14 : 14 + arrows(12) + 3 * count_of(14)
    if (field[1] == 5) return count < 22 ? 22 : 22 + arrows(13)
    if (field[1] == 6) return 5
    if (field[1] == -6) return 1
    refuse(line, "no object of FIG begins with " field[1])
}

# How many fields the arrows have, whose switches are this field and the next.
function arrows(at) { return 5 * ((field[at] != 0) + (field[at + 1] != 0)) }

function count_of(at) {
    if (field[at] !~ /^0*[1-9][0-9]*$/) refuse(line, "its count of points is " field[at])
    return field[at]
}

function are_numbers(    i) {
    for (i = 1; i <= count; i++) {
        if (field[i] !~ /^[-+]?([0-9]+\.?[0-9]*|\.[0-9]+)([eE][-+]?[0-9]+)?$/) return 0
        if (field[i] < -1e9 || field[i] > 1e9) return 0
    }
    return field[7] ~ /^[0-9]+$/ && field[7] < 1000
}

function add_object(    points_at) {
    if (field[1] == 0) add_colour(field[2], tolower(substr(field[3], 2)))
    else if (field[1] == 6) {
        told("plain: line " line ": compound at " field[2] "," field[3] ": broken up")
        level++
    } else if (field[1] == -6) {
        if (!level) refuse(line, "the end of a compound that did not begin")
        end_compound()
    } else {
        kind = kinds[field[1], field[2]]
        if (kind == "") refuse(line, "no object of FIG begins with " field[1] " " field[2])
        points_at = field[1] == 1 ? 12 : field[1] == 2 ? 16 + arrows(14) : field[1] == 3 ? 14 + arrows(12) : 16
        x = field[points_at + 1]
        y = field[points_at + 2]
        if (kind == "picture") leave_out("")
        else if (!are_numbers()) leave_out(": its numbers are none of FIG")
        else if (figures == most_figures) leave_out(": a drawing has at most " most_figures " figures")
        else draw_object(points_at)
    }
}

# Keeps the figures that are made of the object, all of them or none. Its points begin behind this field.
function draw_object(at) {
    changes = ""
    beyond = full = 0
    filled = figures
    if (field[1] == 1) draw_ellipse(x, y, field[15], field[16], field[12])
    else if (field[1] == 2) draw_polyline(at)
    else if (field[1] == 3) draw_spline(at, field[14])
    else draw_arc(field[15], field[16])
    if (figures > filled) {
        change((filled > kept_figures ? "its outline becomes " : "it becomes ") \
            (figures == filled + 1 ? "a polygon" : figures - filled " polygons"))
        if (field[3] > 0) change("its dashes are joined")
    }
    if (beyond) leave_out(": it reaches beyond " most_coordinate)
    else if (full) leave_out(": a drawing has at most " most_figures " figures")
    else if (figures == kept_figures) leave_out(is_filled() ? ": it has no area" : ": it has no fill")
    else keep_object(field[1] == 5 ? 2 : field[1] == 1 ? 3 : 4)
}

function keep_object(rank) {
    if (changes != "") told("plain: line " line ": " kind " at " x "," y ": " changes)
    name[++kept] = kind "-" line
    first_figure[kept] = kept_figures + 1
    last_figure[kept] = kept_figures = figures
    first_comment[kept] = kept_comments + 1
    last_comment[kept] = kept_comments = comments
    append(level, rank, kept, kept)
}

# The order within one depth, as fig2dev paints it: what compounds hold, arcs, ellipses, then lines and splines. These
# are the ranks 1 to 4. Each compound that is open has a list of objects for each rank.

function append(at, rank, first, last) {
    if ((at, rank) in last_of) next_of[last_of[at, rank]] = first
    else first_of[at, rank] = first
    last_of[at, rank] = last
}

# Joins the lists of the innermost compound, and appends them to the compound around it.
function end_compound(    rank, first, last) {
    for (rank = 1; rank <= 4; rank++) if ((level, rank) in last_of) {
        if (first) next_of[last] = first_of[level, rank]
        else first = first_of[level, rank]
        last = last_of[level, rank]
        delete first_of[level, rank]
        delete last_of[level, rank]
    }
    level--
    if (first) append(level, 1, first, last)
}

# Kinds of objects. Each makes a path, points that are joined in order, and fills it, and draws a line along it.

function draw_ellipse(cx, cy, a, b, turn,    half) {
    half = half_width(field[4])
    if (kind == "circle" && a == b) turn = 0
    if (a < 1 || b < 1) return
    if (is_filled()) fill_ellipse(cx, cy, a, b, turn)
    filled = figures
    if (field[4] > 0 && least(a, b) > half) {
        begin_ellipse(cx, cy, a, b, turn, arc_steps(greatest(a, b), 2 * pi))
        stroke(1, half, 0, 1)
    } else if (field[4] > 0) {
        begin_ellipse(cx, cy, a + half, b + half, turn, arc_steps(greatest(a, b) + half, 2 * pi))
        fill_path(0, colour_written(field[5], 20))
    }
}

function fill_ellipse(cx, cy, a, b, turn,    colour, is_uneven) {
    colour = colour_written(field[6], field[9])
    is_uneven = kind == "circle" && a != b
    if (turn == 0) {
        if (is_uneven) change("it becomes an ellipse")
        add_ellipse(is_uneven ? 1 : field[2], colour, cx, cy, a, b, \
            point_text(field[17], field[18]) point_text(field[19], field[20]))
    } else if (cos(turn) * cos(turn) < 0.00000001) {
        change("its turn by a right angle becomes other radii")
        add_ellipse(1, colour, cx, cy, b, a, point_text(cx, cy) point_text(cx + b, cy + a))
    } else {
        change("it is turned, and becomes a polygon")
        begin_ellipse(cx, cy, a, b, turn, most_corners)
        fill_path(0, colour)
    }
}

function draw_polyline(at,    i, is_closed) {
    points = 0
    for (i = 1; i <= field[16]; i++) add_point(field[at + 2 * i - 1], field[at + 2 * i])
    is_closed = points > 1 && is_same(1, points)
    if (!is_closed && is_filled()) change("its ends are joined")
    if (field[2] == 4 && points > 3) round_corners(field[13] * unit)
    draw_path(is_closed || field[2] != 1, field[12], field[11], 14, 16)
}

# Its centre is at (cx, cy).
function draw_arc(cx, cy,    from, sweep, radius) {
    radius = distance(cx, cy, x, y)
    from = atan2(y - cy, x - cx)
    sweep = atan2(field[22] - cy, field[21] - cx) - from
    if (field[12] == 0 && sweep <= 0) sweep += 2 * pi  # clockwise, as y goes down
    if (field[12] != 0 && sweep >= 0) sweep -= 2 * pi
    points = 0
    add_arc(cx, cy, radius, radius, 0, from, sweep, arc_steps(radius, sweep))
    if (field[2] == 2) add_point(cx, cy)
    draw_path(field[2] == 2, field[11], 0, 13, 22)
}

# The shape factors stand behind the n points.
function draw_spline(at, n,    is_closed, i, before, behind, last, t) {
    is_closed = field[2] % 2
    points = 0
    for (i = 1; i <= n - !is_closed; i++) {
        before = i > 1 ? i - 1 : is_closed ? n : 1
        behind = i % n + 1
        last = behind < n ? behind + 1 : is_closed ? 1 : n
        for (t = 0; t < 1; t += 1 / 8)
            add_blend(t, at + 2 * before, at + 2 * i, at + 2 * behind, at + 2 * last, \
                at + 2 * n + i, at + 2 * n + behind)
    }
    if (!is_closed) add_point(field[at + 2 * n - 1], field[at + 2 * n])
    draw_path(is_closed, field[11], 1, 12, 14)
}

# Fills the path, and draws a line along it, with the arrows of which the switches are this field and the next, and the
# own fields begin behind the last field.
function draw_path(is_closed, cap, join, switches, last,    i, n) {
    if (is_closed) leave_end()
    if (is_filled()) fill_path(field[1] == 2 && field[2] == 2 && points == 4, colour_written(field[6], field[9]))
    filled = figures
    if (field[4] <= 0) return
    if (!is_closed && field[switches]) aim_arrow(++n, last, points, -1)
    if (!is_closed && field[switches + 1]) aim_arrow(++n, last + 5 * (field[switches] != 0), 1, 1)
    stroke(is_closed, half_width(field[4]), cap, join)
    for (i = 1; i <= n; i++) draw_arrow(i, arrow_at[i])
}

function is_filled() { return field[9] >= 0 }

# Paths.

function add_point(px, py) { point_x[++points] = px; point_y[points] = py }
function is_same(i, k) { return point_x[i] == point_x[k] && point_y[i] == point_y[k] }

# Leaves out the last point of a path that ends where it begins.
function leave_end() { if (points > 1 && is_same(1, points)) points-- }

# Adds an arc of an ellipse with the radii a and b, by so many steps. Angles rise clockwise, as y goes down.
function add_arc(cx, cy, a, b, turn, from, sweep, steps,    i, t) {
    for (i = 0; i <= steps; i++) {
        t = from + sweep * i / steps
        add_point(cx + a * cos(t) * cos(turn) + b * sin(t) * sin(turn), \
            cy - a * cos(t) * sin(turn) + b * sin(t) * cos(turn))
    }
}

# By so many steps an arc is drawn, at most 3 units off.
function arc_steps(radius, sweep,    steps) {
    steps = 4 + int(sqrt(radius / 24) * (sweep < 0 ? -sweep : sweep))
    return steps < 60 ? steps : 60
}

# Makes the box with two opposite corners at the points 1 and 3 one with round corners of this radius.
function round_corners(radius,    left, top, right, bottom) {
    left = least(point_x[1], point_x[3]); right = greatest(point_x[1], point_x[3])
    top = least(point_y[1], point_y[3]); bottom = greatest(point_y[1], point_y[3])
    radius = least(radius, least(right - left, bottom - top) / 2)
    points = 0
    add_arc(right - radius, bottom - radius, radius, radius, 0, 0, pi / 2, 6)
    add_arc(left + radius, bottom - radius, radius, radius, 0, pi / 2, pi / 2, 6)
    add_arc(left + radius, top + radius, radius, radius, 0, pi, pi / 2, 6)
    add_arc(right - radius, top + radius, radius, radius, 0, 3 * pi / 2, pi / 2, 6)
}

function begin_ellipse(cx, cy, a, b, turn, steps) {
    points = 0
    add_arc(cx, cy, a, b, turn, 0, 2 * pi, steps)
    points--
}

# Adds the point at t of an X-spline (Blanc and Schlick, SIGGRAPH 95) between the second and the third of four points,
# of which the fields of y are told. Behind them stand the fields of the shape factors of these two.
function add_blend(t, first, second, third, fourth, s, r,    a, b, c, d, sum) {
    s = least(1, greatest(-1, field[s]))
    r = least(1, greatest(-1, field[r]))
    a = s < 0 ? tail(-t, -s) : t < s ? approach((s - t) / (1 + s), 1 + s) : 0
    c = s < 0 ? pull(t, -s) : approach((t + s) / (1 + s), 1 + s)
    b = r < 0 ? pull(1 - t, -r) : approach((1 - t + r) / (1 + r), 1 + r)
    d = r < 0 ? tail(t - 1, -r) : t > 1 - r ? approach((t - 1 + r) / (1 + r), 1 + r) : 0
    sum = a + b + c + d
    add_point((a * field[first - 1] + b * field[second - 1] + c * field[third - 1] + d * field[fourth - 1]) / sum, \
        (a * field[first] + b * field[second] + c * field[third] + d * field[fourth]) / sum)
}

# The weights of a point that the curve approaches, and of one that it goes through: near it, and behind it.
function approach(u, width,    p) {
    p = 2 * width * width
    return u * u * u * (10 - p + (2 * p - 15) * u + (6 - p) * u * u)
}

function pull(u, q) { return u * (q + u * (2 * q + u * (8 - 12 * q + u * (14 * q - 11 + u * (4 - 5 * q))))) }
function tail(u, q) { return u * (q + u * (2 * q - u * u * (2 * q + u * q))) }
function least(a, b) { return a + 0 < b + 0 ? a + 0 : b + 0 }
function greatest(a, b) { return -least(-a, -b) }
function distance(ax, ay, bx, by) { return sqrt((bx - ax) * (bx - ax) + (by - ay) * (by - ay)) }

# Leaves out the points that change the path least until so many are left: in each round those that are nearer than a
# bound to the line between their neighbours, but no two neighbours. The bound doubles up to the last one.
function thin_path(most, last,    bound) {
    for (bound = 1; points > most && bound <= last; bound *= 2) thin_once(most, bound)
}

# Points that equal the one before them are left out, too.
function thin_once(most, bound,    i, n, there, dropped) {
    there = points
    n = 1
    for (i = 2; i <= points; i++) {
        dropped = is_same(n, i) || !dropped && there > most && i < points && height_over(n, i, i + 1) < bound
        if (dropped) there--
        else {
            n++
            point_x[n] = point_x[i]; point_y[n] = point_y[i]
        }
    }
    points = n
}

# How far the point i is from the line through a and b, or from a where both are one.
function height_over(a, i, b,    chord, dx, dy) {
    dx = point_x[i] - point_x[a]; dy = point_y[i] - point_y[a]
    chord = distance(point_x[a], point_y[a], point_x[b], point_y[b])
    if (chord == 0) return sqrt(dx * dx + dy * dy)
    dx = (dx * (point_y[b] - point_y[a]) - dy * (point_x[b] - point_x[a])) / chord
    return dx < 0 ? -dx : dx
}

# Figures.

function add_figure(first, colour, last) {
    if (figures == most_figures) full = 1
    else figure[++figures] = first " 0 0 " colour " " colour " " field[7] + 0 " -1 20 0.000 " last
}

function check_reach(px, py) {
    if (px * px > most_coordinate * most_coordinate || py * py > most_coordinate * most_coordinate) beyond = 1
}

function point_text(px, py) {
    px = round(px); py = round(py)
    check_reach(px, py)
    return " " px " " py
}

# A corner is told from the first one of its polygon, so that it may not be too far from it, either.
function corner_text(px, py, is_first) {
    if (is_first) {
        corner_x = round(px); corner_y = round(py)
    }
    check_reach(round(px) - corner_x, round(py) - corner_y)
    return point_text(px, py)
}

# Adds the path as a filled polygon or box.
function fill_path(is_box, colour,    i, text) {
    if (points > most_corners) {
        change("of its " points " corners " most_corners " are kept")
        thin_path(most_corners, 1e30)
    }
    if (points < 3) return
    for (i = 1; i <= points; i++) text = text corner_text(point_x[i], point_y[i], i == 1)
    add_polygon(is_box ? 2 : 3, colour, points, text point_text(point_x[1], point_y[1]))
}

function add_polygon(shape, colour, n, text) {
    add_figure("2 " shape, colour, "0 0 -1 0 0 " n + 1 "\n\t" text "\n")
}

function add_ellipse(shape, colour, cx, cy, a, b, ends) {
    add_figure("1 " shape, colour, "1 0.0000" point_text(cx, cy) point_text(a, b) ends "\n")
}

# Half the width of a line of this thickness.
function half_width(thickness) { return thickness * unit / 2 }

# Lines. One of a width becomes polygons along its segments, each with the sides of at most 31 segments.

function stroke(is_closed, half, cap, join,    segments, i, j, colour) {
    colour = colour_written(field[5], 20)
    thin_path(most_segments, 4)
    thin_once(points, 0)
    if (is_closed) leave_end()
    if (points == 1) {
        add_ellipse(3, colour, point_x[1], point_y[1], half, half, \
            point_text(point_x[1], point_y[1]) point_text(point_x[1] + half, point_y[1]))
        return
    }
    segments = is_closed && points > 2 ? points : points - 1
    for (i = 1; i <= segments; i++) {
        j = i % points + 1
        extent[i] = distance(point_x[i], point_y[i], point_x[j], point_y[j])
        along_x[i] = (point_x[j] - point_x[i]) / extent[i]; along_y[i] = (point_y[j] - point_y[i]) / extent[i]
    }
    for (i = 1; i <= points; i++) {
        is_joined[i] = 0
        overhang[i] = cap > 0 ? half : 0
        if (segments == points || i > 1 && i < points)
            join_segments(i > 1 ? i - 1 : points, i, half, join == 0 ? 9.9 : 1)
    }
    add_strips(segments, half, colour)
}

# Joins two segments at the point where the second one begins, up to a most for the tangent of half the turn there. By
# more, and where a segment is too short, each has an end of its own, which reaches over the point.
function join_segments(before, i, half, most,    cosine, tangent) {
    cosine = least(1, along_x[before] * along_x[i] + along_y[before] * along_y[i])
    tangent = cosine > -0.9999 ? sqrt((1 - cosine) / (1 + cosine)) : 200
    overhang[i] = half * (tangent <= most ? tangent : 1)
    is_joined[i] = tangent <= most && half * tangent <= least(extent[before], extent[i]) / 2
    if (is_joined[i]) {
        side_x[i] = -half * (along_y[before] + along_y[i]) / (1 + cosine)
        side_y[i] = half * (along_x[before] + along_x[i]) / (1 + cosine)
    }
}

# Adds the polygons of the segments. A new one begins where two are not joined, or one crosses another, as by the
# even-odd rule the crossing would be open.
function add_strips(segments, half, colour,    i, j, first, most) {
    most = int((segments - 1) / (int((segments - 1) / most_segments) + 1)) + 1  # as many in each
    first = 1
    for (i = 1; i <= segments; i++) {
        j = i % points + 1
        if (i == first) {
            sides = 0
            left_side = right_side = ""
            add_side(i, i, -1, half)
        }
        add_side(j, i, 1, half)
        if (i == segments || !is_joined[j] || i - first + 1 == most || is_crossed(first, i + 1)) {
            add_polygon(3, colour, 2 * sides, left_side right_side side_begin)
            first = i + 1
        }
    }
}

# Adds the point i to both sides of a strip: the begin of a segment (-1), or its end (1).
function add_side(i, segment, way, half,    px, py, dx, dy) {
    px = point_x[i]; py = point_y[i]
    if (is_joined[i]) {
        dx = side_x[i]; dy = side_y[i]
    } else {
        px += way * overhang[i] * along_x[segment]; py += way * overhang[i] * along_y[segment]
        dx = -half * along_y[segment]; dy = half * along_x[segment]
    }
    left_side = left_side corner_text(px + dx, py + dy, !sides)
    right_side = corner_text(px - dx, py - dy) right_side
    if (!sides++) side_begin = left_side
}

# Whether this segment meets another one from the first on, but for its neighbours.
function is_crossed(first, segment,    i, end) {
    end = segment % points + 1
    for (i = first; i < segment - 1; i++)
        if (end != i && turn_of(i, i + 1, segment) * turn_of(i, i + 1, end) <= 0 && \
                turn_of(segment, end, i) * turn_of(segment, end, i + 1) <= 0) return 1
    return 0
}

function turn_of(a, b, c) {
    return (point_x[b] - point_x[a]) * (point_y[c] - point_y[a]) - (point_y[b] - point_y[a]) * (point_x[c] - point_x[a])
}

# Arrows, at the end of a line. The fields of one are its type, its style, its thickness, its width and its height.

# Aims the n-th arrow at the point that is its tip, from the next point (1) or the one before (-1). On a curve that is
# the first one that is as far as the arrow is high.
function aim_arrow(n, at, tip, step,    from, far) {
    for (from = tip + step; from > 1 && from < points; from += step) {
        far = distance(point_x[from], point_y[from], point_x[tip], point_y[tip])
        if (far > 0 && (kind == "line" || far > field[at + 5])) break
    }
    arrow_at[n] = at
    tip_x[n] = point_x[tip]; tip_y[n] = point_y[tip]
    aim[n] = points > 1 ? atan2(point_y[tip] - point_y[from], point_x[tip] - point_x[from]) : 0
}

function draw_arrow(n, at,    wide, high, back) {
    wide = field[at + 4] / 2
    high = field[at + 5]
    back = field[at + 1] == 2 ? 1.25 : field[at + 1] == 3 ? 0.75 : 1
    points = 0
    add_arrow_point(n, back * high, wide)
    add_arrow_point(n, 0, 0)
    add_arrow_point(n, back * high, -wide)
    if (back != 1) add_arrow_point(n, high, 0)
    if (field[at + 1] == 0) stroke(0, half_width(field[at + 3]), 0, 0)
    else {
        fill_path(0, field[at + 2] == 0 ? 7 : colour_written(field[5], 20))
        if (field[at + 2] == 0 || field[at + 3] > 1) stroke(1, half_width(field[at + 3]), 0, 1)
    }
}

# Adds the point so far behind the tip of the arrow, and so far beside it.
function add_arrow_point(n, behind, beside) {
    add_point(tip_x[n] - behind * cos(aim[n]) - beside * sin(aim[n]), \
        tip_y[n] - behind * sin(aim[n]) + beside * cos(aim[n]))
}

# Colours.

function add_colour(n, rgb) {
    if (kept) refuse(line, "a colour behind a figure")
    if (n in value) refuse(line, "colour " n " is there already")
    if (n < 32 || n > 543 || field[3] !~ /^#[0-9a-fA-F]*$/ || length(rgb) != 6) refuse(line, "no colour of FIG")
    value[n] = rgb
    if (!(rgb in number)) number[rgb] = n
}

# The number of the colour that this one has where an area is filled with this style.
function colour_written(n, style,    rgb) {
    if (!(n in value)) {
        change("its colour " n " is not defined, and becomes black")
        n = 0
    }
    if (style > 40) change("its pattern is left out")
    else if (style != 20) {
        rgb = shaded(n, style)
        change("its colour " n " in area fill " style " becomes " number_of(rgb) ", #" rgb)
        return number_of(rgb)
    }
    if (n < 0 || n > 7 && n < 32) {
        change("its colour " n " becomes " number_of(value[n]) ", #" value[n])
        return number_of(value[n])
    }
    return n
}

# Below 20 a colour is mixed with black, black itself with white; above it with white.
function shaded(n, style,    i, part, rgb) {
    for (i = 1; i <= 5; i += 2) {
        part = 16 * digit(substr(value[n], i, 1)) + digit(substr(value[n], i + 1, 1))
        if (style > 20) part += (255 - part) * (style - 20) / 20
        else if (n < 1) part = 255 * (20 - style) / 20
        else part *= style / 20
        rgb = rgb sprintf("%02x", round(part))
    }
    return rgb
}

function digit(letter) { return index("0123456789abcdef", letter) - 1 }
# Away from 0 at a half, also where the half was computed a little too small.
function round(x) { return x < 0 ? -int(0.500001 - x) : int(x + 0.500001) }

# The number of this colour, the least free one if it has none.
function number_of(rgb,    n) {
    if (!(rgb in number)) {
        for (n = 32; n in value; n++) ;
        if (n > 543) refuse(line, "no number is free for the colour #" rgb)
        value[n] = rgb
        number[rgb] = n
    }
    return number[rgb]
}
