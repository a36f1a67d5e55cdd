# The story of a run (story.awk) as a picture for people, for ./plungerhen wave: plain SVG, no script, nothing from
# outside.
#
# Reads the story's rows; CASE in the environment is the case's name. Writes the picture. bench.awk is read before this.
#
# The run flows in strips, one below the other, like staves of music. A strip has the case's comments on top, then the
# bus, a lane for each present slot, with its pin where the run uses it, and the time. A comment line of the case begins
# a new strip, and so does an exchange that no longer fits. Strips stand on pages: a unit is a pixel of CSS, WIDE by
# PAGE of them are a sheet of A4 on its side, and no strip lies across the edge of a sheet.
#
# The part of a strip's width that an event takes is its piece. On the wires time is linear, half a unit a microsecond.
# Ticks in a row are one piece, a fold, but for a tick that changes what a lane shows: the fold ends there. What is not
# on the wires, and what is refused, is as wide as its words.
#
# Which fonts there are only the reader's machine knows: the widths of words are guessed from their bytes, on the wide
# side.

BEGIN {
  REFUSED = 0; START = 1; BYTE = 2; READ = 3; STOP = 4; TIMEOUT = 5; TICK = 6; VOLTAGE = 7; POWER = 8; TEMPERATURE = 9
  WRITE_PROTECT = 10
  WIDE = 1046; PAGE = 718     # see head()
  LEFT = 95; RIGHT = 1040     # between them are the pieces
  FLAG = 60                   # the width of what is not to scale
  WORDY = 76                  # the same, of longer words
  NOTE = 56                   # the bytes in a line of a note
  PIN = 14                    # the height of a pin's row
}

# ---- texts
function max(a, b) { return a > b ? a : b }
function cut_zeros(number) { sub(/0+$/, "", number); sub(/\.$/, "", number); return number }
function ms(time) { return cut_zeros(sprintf("%.2f", time / 1000)) " ms" }
function degrees(sixteenths) { return cut_zeros(sprintf("%.4f", sixteenths / 16)) " \302\260C" }

# What XML allows, in UTF-8: a byte that does not belong there becomes ?, a control character goes.
function clean(s,   out) {
  gsub(/\t/, " ", s)
  if (s !~ /[^ -~]/) return s
  for (; s != ""; s = substr(s, RLENGTH + 1))
    if (match(s, /^[ -~]+/) || match(s, /^[\302-\337][\200-\277]/) ||
        match(s, /^(\340[\240-\277]|[\341-\354\356][\200-\277]|\355[\200-\237])[\200-\277]/) ||
        match(s, /^\357([\200-\276][\200-\277]|\277[\200-\275])/) ||
        match(s, /^(\360[\220-\277]|[\361-\363][\200-\277]|\364[\200-\217])[\200-\277][\200-\277]/))
      out = out substr(s, 1, RLENGTH)
    else { out = out (s ~ /^[\200-\377]/ ? "?" : ""); RLENGTH = 1 }
  return out
}
function bare(comment) { sub(/^ *#+ */, "", comment); sub(/ +$/, "", comment); return clean(comment) }
function escaped(s) { gsub(/&/, "\\&amp;", s); gsub(/</, "\\&lt;", s); gsub(/>/, "\\&gt;", s); gsub(/"/, "\\&quot;", s); return s }

# Cuts a text into lines of at most so many bytes, at blanks where there are any; returns how many.
function wrap(s, most, cut,   n, i) {
  for (n = 0; length(s) > most; s = substr(s, i + 1)) {
    for (i = most + 1; i > most / 3 && substr(s, i, 1) != " "; i--) ;
    if (substr(s, i, 1) != " ") for (i = most; i > 1 && substr(s, i + 1, 1) ~ /[\200-\277]/; i--) ;
    cut[++n] = substr(s, 1, i)
  }
  cut[++n] = s
  return n
}

function add_line(lines, i, says) { if (i in lines) lines[i] = lines[i] "\n" says; else lines[i] = says }

# ---- elements
function text(x, y, class, says) { return "<text x=\"" x "\" y=\"" y "\" class=\"" class "\">" escaped(says) "</text>\n" }
function rect(x, y, w, h, class) { return "<rect x=\"" x "\" y=\"" y "\" width=\"" w "\" height=\"" h "\" class=\"" class "\"/>\n" }
function path(d, class) { return d == "" ? "" : "<path d=\"" d "\" class=\"" class "\"/>\n" }
function shape(id, x, y) { return "<use xlink:href=\"#" id "\" x=\"" x "\" y=\"" y "\"/>" }
function zigzag(x, y, w) { return path("M" x " " y "h" (w - 20) / 2 "l3 -5l5 10l4 -10l5 10l3 -5h" (w - 20) / 2, "axis") }

# ---- what an event is
function differs(n) { return expected[n] != "?" && expected[n] != answer[n] }
function in_words(a) {
  if (a ~ /^D/) return substr(a, 2) "h"
  if (a ~ /^R/) return "refused " substr(a, 2)
  return a == "A" ? "ACK" : a == "N" ? "NACK" : a == "-" ? "nothing" : a == "short" ? "cut short" : a
}
# The two short lines above an event.
function words_above(n,   s) {
  s = words[n]
  if (kind[n] == REFUSED) { sub(/ /, "|", s); return s }
  if (kind[n] == POWER) return "power cycle" (value[n] ? "|keeps " value[n] : "")
  return n in control ? name_of[n] : ""
}
function width_of(n) {
  if (kind[n] == REFUSED) return max(FLAG, 5 * (length(words[n]) - index(words[n], " ")) + 8)
  if (kind[n] == BYTE || kind[n] == READ) return 45
  if (kind[n] == WRITE_PROTECT) return WORDY
  return kind[n] != START && kind[n] != STOP ? FLAG : differs(n) ? 45 : 10
}
function to_scale(n) { return kind[n] != REFUSED && (to[n] - from[n]) / 2 == width_of(n) }

# ---- events to pieces
function joins(n) {
  if (n == 1 || kind[n] != TICK || kind[n - 1] != TICK || differs(n) || differs(n - 1)) return 0
  return !((n - 1) in changes) && !(n in comments) && (line[n] == line[n - 1] || !(line[n] in note))
}
function build_pieces(   n, open, fresh) {
  for (n = 1; n <= events; n++) {
    if (joins(n)) { last[pieces] = n; continue }
    pieces++
    first[pieces] = last[pieces] = n
    wide[pieces] = width_of(n)
    idle[pieces] = !open
    if (kind[n] == BYTE && fresh) control[n] = 1
    if (kind[n] == START) open = fresh = 1
    if (kind[n] == BYTE || kind[n] == READ) fresh = 0
    if (kind[n] == STOP || kind[n] == TIMEOUT || kind[n] == POWER) open = fresh = 0
  }
  first[pieces + 1] = events + 1
}
function middle(p) { return at[p] + wide[p] / 2 }
function note_at(p) { return first[p] == begins[line[first[p]]] && (line[first[p]] in note) ? note[line[first[p]]] : "" }
function note_width(p) { return note_at(p) == "" ? 0 : 6 * (length(note_at(p)) > NOTE ? NOTE : length(note_at(p))) + 8 }

# ---- pieces to strips
# The room that the pieces from p on want, with their notes, and with the words in a lane or the time that stand behind
# them: p alone (0), those up to the next start (1), those up to the end of an exchange and of the ticks behind it (2).
function reach(p, how,   q, n, x, far, started) {
  for (q = p; q <= pieces && x <= WIDE; q++) {
    n = first[q]
    if (q > p && (how == 0 || (n in comments) || started && idle[q] && kind[n] != TICK || how == 1 && kind[n] == START)) break
    if (kind[n] == START) started = 1
    far = max(far, x + note_width(q))
    x += wide[q]
    far = max(far, x + (last[q] in tells ? 135 : kind[n] == TICK ? 25 : 0))
  }
  return far
}
# May p stand on the strip that has come to x? An exchange that fits a strip stands on one strip. Within a longer one, a
# start wants what is up to the next start on its strip too, if the strip is half full. What stands between exchanges
# only has to fit by itself.
function fits(p, x,   room, all) {
  room = RIGHT - x; all = RIGHT - LEFT
  if (reach(p, 0) > room) return 0
  if (kind[first[p]] != START || !idle[p] && room > all / 2) return 1
  if (reach(p, 2) <= all) return reach(p, 2) <= room
  return reach(p, 1) <= room || reach(p, 1) > all
}
function build_strips(   p, x) {
  for (p = 1; p <= pieces; p++) {
    if (p == 1 || (first[p] in comments) || !fits(p, x)) { strip_from[++strips] = p; x = LEFT }
    strip_to[strips] = p
    at[p] = x
    x += wide[p]
  }
  if (!strips || (events + 1) in comments) { strip_from[++strips] = pieces + 1; strip_to[strips] = pieces }
}

# ---- blocks: what the edge of a page does not cut
function block(svg, high) { block_svg[++blocks] = svg; block_high[blocks] = high }

# A comment's lines, from y on; `tall` is where they end. What is longer than half a page goes before it, in blocks of
# its own.
function comment_lines(comment, class, y, step, most,   w, k, i, j, lines, cut, svg) {
  k = split(comment, w, "\n")
  for (i = 1; i <= k; i++) {
    lines = wrap(w[i], most, cut)
    for (j = 1; j <= lines; j++) {
      if (y > PAGE / 2) { block(svg, y); svg = ""; y = 0 }
      svg = svg text(6, y += step, class, cut[j])
    }
  }
  tall = y
  return svg
}

# ---- a strip: notes. They are stacked so that the later one stands lower, and no pole runs through words.
function stack_notes(s,   p, q, most, cut) {
  most = 0
  for (p = strip_to[s]; p >= strip_from[s]; p--) {
    if (note_at(p) == "") continue
    level[p] = 0
    for (q = p + 1; q <= strip_to[s] && at[q] < at[p] + note_width(p); q++) if (note_at(q) != "") level[p] = max(level[p], level[q])
    level[p] += wrap(note_at(p), NOTE, cut)
    most = max(most, level[p])
  }
  return most
}
# Each stands on a rule that spans the events of its line in the case; the rules are at `foot`.
function draw_notes(s, foot,   p, i, lines, cut, svg, y, x) {
  for (p = strip_from[s]; p <= strip_to[s]; p++) {
    if (!(line[first[p]] in note)) continue
    x = at[p] + 1
    if (note_at(p) != "") {
      y = foot - 13 * level[p]
      lines = wrap(note_at(p), NOTE, cut)
      for (i = 1; i <= lines; i++) svg = svg text(x + 4, y + 13 * i - 5, "note", cut[i])
      svg = svg path("M" x " " y "V" foot, "pole")
    }
    while (p < strip_to[s] && line[first[p + 1]] == line[first[p]]) p++
    svg = svg path("M" x " " foot "H" at[p] + wide[p] - 1, "pole")
  }
  return svg
}

# ---- a strip: the bus
function hint(p,   n, says) {
  n = first[p]
  says = "event " n (last[p] > n ? " to " last[p] : "") ", line " line[n] ", at " ms(from[n]) ": " words[n] ": " in_words(answer[n])
  return "<title>" escaped(says) "</title>"
}
# The ninth bit: a slot's answer to a byte from the master, the master's to a byte from a slot.
function ninth(n) { return kind[n] == BYTE ? answer[n] : value[n] ? "A" : "N" }
function draw_byte(n, x, y) {
  if (kind[n] == BYTE) return shape("w" ninth(n), x, y) text(x + 17, y + 16, "value", sprintf("%02Xh", value[n]))
  return shape("r" ninth(n), x, y) text(x + 17, y + 21, "value", in_words(answer[n]))
}
# A piece that is no byte: a mark, words in a frame, or nothing but the time that goes by.
function draw_other(p, n, y) {
  if (kind[n] == START || kind[n] == STOP) return shape(kind[n] == START ? "S" : "P", middle(p) - 5, y)
  if (kind[n] == TICK) return text(middle(p), y + 10, "strong mid", ms(to[last[p]] - from[n])) zigzag(at[p], y + 20, wide[p])
  if (kind[n] != REFUSED && kind[n] != TIMEOUT) return path("M" at[p] " " y + 14.5 "h" wide[p], "dots")
  return rect(at[p] + 2, y + 4, wide[p] - 4, 20, kind[n] == TIMEOUT ? "timeout" : "refused") \
    text(middle(p), y + 17, "small mid", kind[n] == TIMEOUT ? "timeout" : in_words(answer[n]))
}
function draw_piece(p,   n, w, svg, y) {
  n = first[p]
  if (split(words_above(n), w, "|"))
    svg = text(middle(p), words_y + 8, "small mid", w[1]) (2 in w ? text(middle(p), words_y + 17, "small mid", w[2]) : "")
  if (kind[n] == BYTE || kind[n] == READ) svg = svg "<g class=\"" (differs(n) ? "X" : ninth(n)) "\">" hint(p) draw_byte(n, at[p], bus_y) "</g>\n"
  else svg = svg "<g>" hint(p) (differs(n) ? rect(at[p], bus_y, wide[p], 29, "differs") : "") draw_other(p, n, bus_y) "</g>\n"
  if (differs(n)) svg = svg text(middle(p), bus_y + 40, "due mid red", "expected") text(middle(p), bus_y + 49, "due mid red", in_words(expected[n]))
  if (kind[n] == POWER) svg = svg path("M" middle(p) " " bus_y + 1 "V" axis_y, "power")
  y = lane_y[slot[n]]
  if (kind[n] == VOLTAGE) svg = svg text(middle(p), y + 10, "small mid", "SA0 " on_words(value[n]))
  if (kind[n] == WRITE_PROTECT) svg = svg text(middle(p), y + 10, "small mid", "write-protect " on_words(value[n]))
  if (kind[n] == TEMPERATURE) svg = svg text(middle(p), y + 10, "small mid", degrees(value[n])) path("M" middle(p) " " y + 13 "v6", "axis")
  return svg
}

# ---- a strip: the slots' lanes. What a lane shows is drawn where it ends, from where it began: `shades` below, `marks`
# upon them.
function blocks_of(bits, but_not,   b, list) {
  for (b = 1; b <= 4; b++) if (substr(bits, b, 1) == 1 && substr(but_not, b, 1) != 1) list = list " " b - 1
  return list
}
function in_a_row(list,   w, n) { n = split(list, w, " "); return blocks_named(w, n) }
function end_cycle(i, x,   y, w) {
  y = lane_y[i] + bar_y[i]; w = x - since_busy[i]
  if (busy[i] && w > 0)
    marks = marks rect(since_busy[i], y, w, 11, "cycle") (w >= 58 ? text(since_busy[i] + 4, y + 9, "small white", "write cycle") : "")
  since_busy[i] = x
}
function end_voltage(i, x) {
  if (volts[i] && x > since_volts[i]) shades = shades rect(since_volts[i], lane_y[i], x - since_volts[i], lane_high[i], "voltage")
  since_volts[i] = x
}
function end_protection(i, x,   b, y) {
  y = lane_y[i] + bar_y[i] + 9
  if (guarded[i] && x > since_safe[i])
    for (b = 1; b <= stripes[i]; b++)
      marks = marks rect(since_safe[i], y + 4 * b, x - since_safe[i], 3, substr(safe[i], b, 1) != 1 ? "open" : lasts[i] ? "lasting" : "safe")
  since_safe[i] = x
}
function change(i, x, left, bits, on, for_ever,   says) {
  if ((left > 0) != busy[i]) { end_cycle(i, x); busy[i] = left > 0 }
  if (on != volts[i]) { end_voltage(i, x); volts[i] = on }
  if (bits == safe[i] && for_ever == lasts[i]) return
  end_protection(i, x)
  if (for_ever != lasts[i]) says = in_a_row(blocks_of(bits, "")) " protected for ever"
  else if (blocks_of(bits, safe[i]) != "") says = in_a_row(blocks_of(bits, safe[i])) " protected "
  if (blocks_of(safe[i], bits) != "") says = says in_a_row(blocks_of(safe[i], bits)) " free again"
  marks = marks text(x + 4, lane_y[i] + bar_y[i] + 9, "small", says)
  safe[i] = bits; lasts[i] = for_ever
}
# A pin, in a row of its own at the lane's foot: a line for its level, a shade where a sensor's EVENT pin is asserted, or
# an older memory's write-protect pin is on.
function pin_y(i) { return lane_y[i] + lane_high[i] - PIN }
function level_y(i) { return pin_y(i) + (up[i] ? 3 : PIN - 3) }
function end_asserted(i, x,   w) {
  w = x - since_asserted[i]
  if (asserted[i] && w > 0)
    marks = marks rect(since_asserted[i], pin_y(i), w, PIN, "asserted") \
      (w >= 50 ? text(since_asserted[i] + 4, pin_y(i) + 10, "small", pinned[i] == "EVENT" ? "asserted" : "on") : "")
  since_asserted[i] = x
}
function change_pin(i, x, is_asserted, is_high) {
  if (!pinned[i]) return
  if (is_asserted != asserted[i]) { end_asserted(i, x); asserted[i] = is_asserted }
  if (is_high == up[i]) return
  up[i] = is_high
  trace[i] = trace[i] "H" x "V" level_y(i)
}
function draw_lanes(s, x_end,   i, p, w, k, j, f, x) {
  shades = marks = ""
  for (i = 0; i < SLOTS; i++) {
    since_busy[i] = since_volts[i] = since_safe[i] = since_asserted[i] = LEFT
    trace[i] = "M" LEFT " " level_y(i)
  }
  for (p = strip_from[s]; p <= strip_to[s]; p++) {
    k = split(changes[last[p]], w, "\n")
    for (j = 1; j <= k; j++) {
      split(w[j], f, " ")
      x = kind[last[p]] == TICK || kind[last[p]] == BYTE ? at[p] + wide[p] : middle(p)
      change(f[1], x, f[2], f[3], f[4], f[7]); change_pin(f[1], x, f[5], f[6])
    }
  }
  for (i = 0; i < SLOTS; i++) {
    if (!(i in module)) continue
    end_cycle(i, x_end); end_voltage(i, x_end); end_protection(i, x_end)
    if (pinned[i]) { end_asserted(i, x_end); marks = marks path(trace[i] "H" x_end, "axis") }
    marks = marks rect(LEFT, lane_y[i], x_end - LEFT, lane_high[i], "frame")
  }
  return shades marks
}
# At the left of the strip, before its lanes are drawn: what is protected here was so from its beginning.
function draw_labels(n,   i, svg) {
  svg = text(6, bus_y + 13, "strong", "bus") (events ? text(6, bus_y + 23, "small", "line " line[n]) : text(LEFT, bus_y + 18, "small", "no events"))
  for (i = 0; i < SLOTS; i++) {
    if (!(i in module)) continue
    svg = svg text(6, lane_y[i] + 10, "strong", "slot " i) text(6, lane_y[i] + 20, "small", module[i])
    if (safe[i] ~ /1/) svg = svg text(6, lane_y[i] + 30, "small", lasts[i] ? "protected for ever" : "protected:" blocks_of(safe[i], ""))
    if (pinned[i] == "EVENT") svg = svg text(6, pin_y(i) + 11, "small", "EVENT pin, " (up[i] ? "high" : "low"))
    if (pinned[i] == "write-protect") svg = svg text(6, pin_y(i) + 11, "small", "write-protect, " on_words(up[i]))
  }
  return svg
}

# ---- a strip: the time
function is_fold(p) { return p > 0 && kind[first[p]] == TICK }
function is_exact(s, p) { return p == strip_from[s] || is_fold(p - 1) }
function time_label(x, time) { labelled = x; return path("M" x " " axis_y - 3 "v6", "axis") text(x, axis_y + 14, "small mid", ms(time)) }

# Is a time at x clear of the one before, of the next that has to stand, and of the sheet's edge?
function label_fits(s, p, x,   q) {
  if (x - labelled < 50 || x > RIGHT - 25) return 0
  for (q = p + 1; q <= strip_to[s] && at[q] - x < 50; q++) if (is_exact(s, q)) return 0
  return 1
}
# A mark each 100 us of what is to scale, and the time at each 200 where it fits; the exact time where the strip begins
# and where a fold ends.
function draw_axis(s,   p, n, svg, solid, dots, time, x) {
  for (p = strip_from[s]; p <= strip_to[s]; p++) {
    n = first[p]
    if (is_exact(s, p)) svg = svg time_label(at[p], from[n])
    if (kind[n] == REFUSED) continue
    if (is_fold(p)) { svg = svg zigzag(at[p], axis_y, wide[p]); continue }
    if (!to_scale(n)) { dots = dots "M" at[p] " " axis_y "h" wide[p]; continue }
    solid = solid "M" at[p] " " axis_y "h" wide[p]
    for (time = 100 * int((from[n] + 99) / 100); time < to[n]; time += 100) {
      x = at[p] + (time - from[n]) / 2
      solid = solid "M" x " " axis_y "v3"
      if (time % 200 == 0 && label_fits(s, p, x)) svg = svg time_label(x, time)
    }
  }
  p = strip_to[s]
  return svg (is_fold(p) ? time_label(at[p] + wide[p], to[last[p]]) : "") path(solid, "axis") path(dots, "dots")
}

# ---- a strip as a whole
# Where its rows are, from y on: notes, words above the bus, the bus, the lanes, the time.
function measure(s, y, notes,   p, i) {
  words_y = y + 13 * notes + 4
  bus_y = words_y + 2
  for (p = strip_from[s]; p <= strip_to[s]; p++) if (words_above(first[p]) != "") bus_y = words_y + 20
  y = bus_y + 31
  for (p = strip_from[s]; p <= strip_to[s]; p++) if (differs(first[p])) y = bus_y + 53
  for (i = 0; i < SLOTS; i++) if (i in module) { lane_y[i] = y; y += lane_high[i] + 3 }
  axis_y = y + 5
}
function draw_strip(s,   p, x_end, svg, notes) {
  p = strip_from[s]
  tall = 2
  if (first[p] in comments) { svg = comment_lines(comments[first[p]], "caption", 8, 15, 140); tall += 3 }
  if (events && p > pieces) { block(svg, tall + 12); return }
  notes = stack_notes(s)
  measure(s, tall + (notes ? 4 : 0), notes)
  x_end = p > pieces ? LEFT + 100 : at[strip_to[s]] + wide[strip_to[s]]
  svg = svg draw_notes(s, words_y - 2) draw_labels(first[p])
  for (; p <= strip_to[s]; p++) if (is_fold(p)) svg = svg rect(at[p], bus_y, wide[p], axis_y - bus_y, "fold")
  svg = svg draw_lanes(s, x_end)
  for (p = strip_from[s]; p <= strip_to[s]; p++) svg = svg draw_piece(p)
  block(svg draw_axis(s), axis_y + 18)
}

# ---- the whole
function verdict() {
  if (unlike) return unlike == 1 ? "One answer differs from what the case expects." : unlike " answers differ from what the case expects."
  return loose == events ? "The case expects no answers." : "The answers are as expected" (loose ? ", " loose " of them not compared." : ".")
}
function heading(   i, svg) {
  i = index(title "\n", "\n")
  svg = comment_lines(substr(title, 1, i - 1), "title", 0, 21, 100)
  svg = svg comment_lines(substr(title, i + 1), "caption", tall + 2, 16, 140)
  svg = svg text(6, tall + 19, "strong", name ": " events (events == 1 ? " event, " : " events, ") ms(to[events] - from[1]) " on wires at 100 kHz")
  if (events) svg = svg text(6, tall + 34, unlike ? "strong red" : "strong", verdict())
  block(svg, tall + 42)
}
# What the marks mean, at the foot.
function byte_mark(class, id, x, y) { return "<g class=\"" class "\">" shape(id, x, y) "</g>\n" }
function legend(   svg, i) {
  svg = path("M6 6H" RIGHT, "pole")
  svg = svg shape("S", 6, 14) text(20, 31, "small", "start") shape("P", 56, 14) text(70, 31, "small", "stop")
  svg = svg byte_mark("A", "wA", 112, 14) text(163, 31, "small", "byte from the master, ACK")
  svg = svg byte_mark("N", "wN", 312, 14) text(363, 31, "small", "NACK")
  svg = svg byte_mark("A", "rA", 408, 14) text(459, 31, "small", "byte from a slot, the master's ACK") byte_mark("X", "wN", 650, 14)
  svg = svg text(701, 31, "small red", "not what the case expects") rect(866, 18, 56, 20, "refused") text(894, 31, "small mid", "refused 4")
  svg = svg text(928, 31, "small", "takes no time")
  svg = svg zigzag(6, 59, 40) text(52, 62, "small", "ticks, folded") path("M134 59h40", "dots") text(180, 62, "small", "not to scale")
  svg = svg rect(264, 53, 56, 11, "cycle") text(326, 62, "small", "write cycle")
  svg = svg rect(408, 52, 45, 15, "voltage") text(459, 62, "small", "high voltage on SA0")
  for (i = 0; i < 4; i++) svg = svg rect(580, 52 + 4 * i, 45, 3, i ? "open" : "safe")
  svg = svg text(631, 62, "small", "blocks 0 to 3 of a slot, block 0 protected") path("M872 50v18", "power") text(880, 62, "small", "power cycle")
  if ("EVENT" in pins)
    svg = svg rect(26, 76, 25, PIN, "asserted") path("M6 79h20v8h25", "axis") text(57, 86, "small", "EVENT pin, its level, asserted")
  if ("write-protect" in pins)
    svg = svg rect(284, 76, 36, PIN, "asserted") path("M264 87h20v-8h36", "axis") text(326, 86, "small", "write-protect pin, on")
  if (lasting) svg = svg rect(580, 80, 45, 3, "lasting") text(631, 86, "small", "block 0 of an older memory, protected for ever")
  block(svg, lasting || pin_rows ? 96 : 72)
}

function define_byte(id, d, y) { print "<g id=\"" id "\"><path d=\"" d "\"/><text x=\"38\" y=\"" y "\" class=\"bit\">" substr(id, 2) "</text></g>" }
function define_mark(id, d, x) {
  print "<g id=\"" id "\"><path d=\"" d "\" class=\"mark\"/><text x=\"" x "\" y=\"17.5\" class=\"bit white\">" id "</text></g>"
}

# The page's margins leave 190 mm less a hair of its height, which a browser takes as 718 pixels; 190 mm would be 719.
function head(high) {
  print "<?xml version=\"1.0\" encoding=\"UTF-8\"?>"
  print "<svg xmlns=\"http://www.w3.org/2000/svg\" xmlns:xlink=\"http://www.w3.org/1999/xlink\""
  print "  width=\"" WIDE "\" height=\"" high "\" viewBox=\"0 0 " WIDE " " high "\">"
  print "<title>" escaped(name) "</title>"
  print "<style>"
  print "@page { size: A4 landscape; margin: 10mm 10mm 10.05mm }"
  print "text { font-family: sans-serif; font-size: 12px; fill: #222; stroke: none }"
  print ".title { font-size: 15px; font-weight: bold } .strong { font-size: 10px; font-weight: bold } " \
    ".note { font-size: 10px; font-style: italic; fill: #234 }"
  print ".small { font-size: 9px } .due { font-size: 8px } .mid { text-anchor: middle } .grey { fill: #666 } " \
    ".red { fill: #c00000; font-weight: bold }"
  print ".value { font-family: monospace; font-size: 11px; text-anchor: middle; fill: currentColor }"
  print ".bit { font-size: 8px; font-weight: bold; text-anchor: middle; fill: currentColor } .white { fill: #fff } .mark { fill: #222; stroke: none }"
  print ".A { fill: #d8f0d2; stroke: #3b7a3f; color: #111 } .N { fill: #f2a860; stroke: #7a4200; color: #111 } " \
    ".X { fill: #c80000; stroke: #600000; color: #fff }"
  print ".differs { fill: #ffc9c9; stroke: #c80000; stroke-width: 2 } .refused { fill: #f4f4f4; stroke: #777; stroke-dasharray: 3 2 }"
  print ".axis { fill: none; stroke: #333 } .dots { fill: none; stroke: #333; stroke-dasharray: 1.5 2.5 } .pole { fill: none; stroke: #89a }"
  print ".power { fill: none; stroke: #222; stroke-width: 2; stroke-dasharray: 6 2 } .frame { fill: none; stroke: #bbb }"
  print ".timeout { fill: #fff; stroke: #222 } .fold { fill: #f1f1f1 } .cycle { fill: #33628f }"
  print ".voltage { fill: #ffe680; fill-opacity: .8 } .safe { fill: #5b2a86 } .open { fill: #d8d8d8 }"
  if (pin_rows) print ".asserted { fill: #bfe3ea }"
  if (lasting) print ".lasting { fill: #b00020 }"
  print "</style>"
  print "<defs>"
  define_byte("wA", "M.5 .5h44v23l-22 5l-22 -5z", 15); define_byte("wN", "M.5 .5h44v23l-22 5l-22 -5z", 15)
  define_byte("rA", "M.5 28.5h44v-23l-22 -5l-22 5z", 20); define_byte("rN", "M.5 28.5h44v-23l-22 -5l-22 5z", 20)
  define_mark("S", "M.5 1h6l3 13.5l-3 13.5h-6z", 4); define_mark("P", "M9.5 1h-6l-3 13.5l3 13.5h6z", 6)
  print "</defs>"
  print "<rect width=\"" WIDE "\" height=\"" high "\" fill=\"#fff\"/>"
}
function print_pages(   b, y, page, n) {
  for (b = 1; b <= blocks; b++) {
    if (y && y + block_high[b] > PAGE * (page + 1)) y = PAGE * ++page + 20
    block_y[b] = y + 0
    y += block_high[b]
    if (y > PAGE * (page + 1)) page = int(y / PAGE)
  }
  head(y)
  for (n = 1; n <= page; n++) printf "%s", text(6, PAGE * n + 11, "small grey", name ", page " n + 1 " of " page + 1)
  for (b = 1; b <= blocks; b++) print "<g transform=\"translate(0 " block_y[b] ")\">\n" block_svg[b] "</g>"
  print "</svg>"
}

$1 == "P" { module[$2] = KIND[$3] ", " $4 " ms"; kind_at[$2] = $3; stripes[$2] = bytes_of($3) / 128 }
$1 == "C" && $2 !~ /^ *#/ {
  setup = 1
  if (i = index($2, "#")) add_line(comments, events + 1, bare(substr($2, 1, i - 1)) ": " bare(substr($2, i)))
}
$1 == "C" && $2 ~ /^ *#/ {
  if (setup || events) add_line(comments, events + 1, bare($2))
  else title = (title == "" ? "" : title "\n") bare($2)
}
$1 == "E" {
  n = ++events
  line[n] = $3; from[n] = $4; to[n] = $5; slot[n] = $7; value[n] = $8; words[n] = clean($9); answer[n] = $10; expected[n] = $11
  kind[n] = $10 ~ /^R|^short/ ? REFUSED : $6 + 0
  if (kind[n] == BYTE) name_of[n] = called(value[n], kind_at, on_at)
  if (!($3 in begins)) begins[$3] = n
  if (bare($12) != "") note[$3] = bare($12)
  unlike += differs(n); loose += $11 == "?"
  if (kind[n] == VOLTAGE || kind[n] == TEMPERATURE || kind[n] == WRITE_PROTECT) flagged[$7] = 1
}
$1 == "S" {
  if (is_older(kind_at[$3])) $7 = $8 = $10      # the pin that it has
  shown = ($4 > 0) " " $5 " " $6 " " $7 " " $8 " " $9
  if (!events) { busy[$3] = $4 > 0; volts[$3] = $6; safe[$3] = protection[$3] = $5; asserted[$3] = $7; up[$3] = $8; lasts[$3] = permanent[$3] = $9 }
  else if (shown != was[$3]) add_line(changes, events, $3 " " $4 " " $5 " " $6 " " $7 " " $8 " " $9)
  if (uses_pin($7, $8, up[$3])) { pinned[$3] = is_older(kind_at[$3]) ? "write-protect" : "EVENT"; pins[pinned[$3]] = pin_rows = 1 }
  if ($5 != protection[$3] || $9 != permanent[$3]) tells[events] = 1
  if ($5 ~ /1/) guarded[$3] = 1
  if ($9 == 1) lasting = 1
  was[$3] = shown; protection[$3] = $5; permanent[$3] = $9; on_at[$3] = $6
}
END {
  events += 0
  name = ENVIRON["CASE"] == "" ? "a case" : clean(ENVIRON["CASE"])
  for (i = 0; i < SLOTS; i++) {
    bar_y[i] = flagged[i] ? 14 : 6; lane_high[i] = bar_y[i] + (guarded[i] ? 30 : 13)
    if (lane_high[i] < 24) lane_high[i] = 24
    if (pinned[i]) lane_high[i] += PIN + 2
  }
  build_pieces()
  build_strips()
  heading()
  for (s = 1; s <= strips; s++) draw_strip(s)
  legend()
  print_pages()
}
