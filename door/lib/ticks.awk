# Places the ticks, which are not on the wires, among the events of a logic analyser's export, for ./plungerhen capture
# --sigrok and --saleae (analyser).
#
# Reads what each told slot would do were it alone and ready (alone.awk), then the events (the rows W of exports.awk and
# beside.awk, in order); bench.awk is read before this. Writes rows, fields parted by tabs, times in nanoseconds; `-`
# where there is no number:
#
#   E  record's number from 0, time, line number, w (on the wires), b (beside) or t (a tick), kind, slot, value, answer,
#      exchange (0 outside of any)
#   K  slot, record and time of the stop that may have begun a write cycle of it, how the cycle ended (seen, clock,
#      with, heard, power, open), record and time of the event before which it ended, time at which it was last seen to
#      run (behind that end: first seen to run longer), control byte that it ended by
#   U  slot, record and time of a command that it is taken not to have heard, the command, time of the stop that began
#      its write cycle, a word for it
#   O  what was left out, as exports.awk has it
#   M  slot, event, and what alone.awk is to leave out of the slot's next run: the level, and whether it then stood
#      otherwise than deaf; or `cut`, at a stop, for a cycle that power cuts
#   N  exchanges, events on the wires, events beside them, ticks, time of the first event, time of the last
#
# and, behind these, F: slot, stop and end of one cycle, then slot, stop and last time at which it ran of another with
# which no ticks fit, and the time of the stop with which the rows E then end.
#
# The rule (docs/DECISIONS.md, 107 to 109 and 131). A cycle is over (seen) before the start of the first exchange whose
# control byte the slot acknowledged, or (clock) once as many milliseconds have passed as it has ticks, or (with) where
# one is that began no earlier and has no fewer ticks, unless power cuts it. A slot in a cycle is taken not to hear what
# another acknowledges, but for the words of rows U in `heard` (heard). Ticks stand before gates only, which are the
# starts and the events beside the wires. With P(g) ticks up to gate g, a cycle of n ticks from gate b on that ends
# before gate e asks for P(e) >= P(b) + n and P(e - 1) <= P(b) + n - 1. The least P that do are taken.

# ---- the events
function take(when, from, line, source, kind, slot, val, answer) {
  row[n] = from "\t" line "\t" source "\t" kind "\t" slot "\t" val "\t" answer
  if (n == 1) first_time = from
  last_time = from
  if (source == "w") wires++
  else besides++
  if (kind == 1) on_start(when)
  row[n] = row[n] "\t" (inside ? exchange : 0)
  if (kind == 2) on_byte(val, answer == "A")
  else if (kind == 3) spoiled = 1
  else if (kind == 4) on_stop(when)
  else if (source == "b") on_beside(when, kind)
}

# ---- gates
function new_gate(when,   s) {
  gate_at[++gates] = when; gate_row[n] = gates; row_of[gates] = n
  for (s = 0; s < SLOTS; s++) if ((s in open) && by_clock(open[s], gates)) ends(s, gates, "clock")
}
function on_start(when,   s) {
  if (!inside) exchange++
  inside = 1
  control = -1; spoiled = 0
  for (s = 0; s < SLOTS; s++) delete deaf[s]
  new_gate(when)
  start_gate = gates
}
function on_beside(when, kind,   s) {
  new_gate(when)
  for (s = 0; s < SLOTS; s++) if (kind == 8 && (s in open)) { is_cut(s, open[s]); ends(s, gates, "power") }
  if (kind == 5 || kind == 8) { control = -2; inside = 0 }
}

# ---- bytes. `control` is -1 where a control byte is to come, -2 where none is. deaf[] are the slots that did not hear
# the last one since their cycles ran.
function on_byte(val, ack) {
  if (control == -1) { control = val; asked(val, ack) }
  if (!ack) spoiled = 1
}
# A control byte shows that a slot that would acknowledge it is ready; or, if high voltage is nothing to it, that each
# that would heed it is not.
function asked(val, ack,   s) {
  s = ack ? readiest(val) : -1
  if (s >= 0) answers(s, val)
  for (s = 0; s < SLOTS; s++) {
    if (!((n, s) in heeds)) continue
    if (!ack && heeds[n, s] && ((val, s, "both") in could)) declines(s)
    if ((s in open) && ack && ((n "," s) in forced)) { ended_by[open[s]] = val; ends(s, start_gate, "heard") }
    if (!(s in open)) continue
    deaf[s] = 1
    unheard[open[s]] = unheard[open[s]] " " n
    if (ack && heeds[n, s]) doubted(open[s], val)
    if (out[n, s]) leave_out(s, n, out[n, s])
  }
}
function leave_out(s, n, level) { left_out[s, n] = level "\t" heeds[n, s] }
# The run of a slot whose cycle power cuts has no ticks behind the stop, so what it would have done were it ready is
# kept from the run before.
function is_cut(s, c,   m, w, i) {
  left_out[s, stop_row[c]] = "cut\t0"
  m = split(unheard[c], w, " ")
  for (i = 1; i <= m; i++) leave_out(s, w[i], 2)
}
# Which slot it was that acknowledged a control byte: the only one that could; or, if all that would are in a cycle, the
# one whose cycle has had the most of its time.
function readiest(val,   s, many, part, most, best) {
  for (s = 0; s < SLOTS; s++) if (((val, s, 0) in could) || ((val, s, 1) in could)) { best = s; many++ }
  if (many == 1) return best
  best = -1
  for (s = 0; s < SLOTS; s++) {
    if (!((n, s) in heeds)) continue
    if (!(s in open)) return -1
    part = (gate_at[start_gate] - stop_at[open[s]]) / ticks_of[s]
    if (best < 0 || part > most) { most = part; best = s }
  }
  return best
}
function doubted(c, val) {
  doubt[++doubts] = c; doubt_row[doubts] = n; doubt_at[doubts] = gate_at[start_gate]; doubt_byte[doubts] = val
  busy_gate[c] = start_gate
}
# A slot acknowledged a control byte: if its cycle ran still before that exchange's start, it ended there.
function answers(s, val,   c) {
  if (s in open) ends(s, start_gate, "seen")
  c = latest[s]
  if (c && how[c] == "with" && !(c in told_gate)) { told_gate[c] = start_gate; ended_by[c] = val; return }
  if (!c || end_gate[c] < start_gate || how[c] == "power") return
  end_gate[c] = start_gate; how[c] = "seen"; ended_by[c] = val
}
# It did not: its cycle runs still, or, for the first time, longer than by the clock. Where it should be over since
# another is, no ticks fit.
function declines(s,   c) {
  c = latest[s]
  if (s in open) { busy_gate[c] = start_gate; ran_at[c] = gate_at[start_gate] }
  if ((s in open) || (c && how[c] == "clock" && busy_at[c] < gate_at[end_gate[c]])) busy_at[c] = gate_at[start_gate]
  if (c && !(s in open) && how[c] == "with" && !(c in told_gate) && !by_clock(c, start_gate) && !unfit) { unfit = c; unfit_gate = start_gate }
}
function by_clock(c, g) { return gate_at[g] - stop_at[c] >= 1e6 * ticks_of[slot_of[c]] }
function on_stop(when,   s) {
  for (s = 0; s < SLOTS; s++)
    if (control >= 0 && !spoiled && !(s in deaf) && ((n, s) in may_begin)) begins(s, when)
  control = -2; inside = 0
}

# ---- write cycles
function begins(s, when) {
  open[s] = latest[s] = ++cycles
  slot_of[cycles] = s; stop_at[cycles] = when; stop_row[cycles] = n; from_gate[cycles] = busy_gate[cycles] = gates
  how[cycles] = "open"; end_gate[cycles] = busy_at[cycles] = ""
}
function ends(s, g, by,   c, d) {
  c = open[s]
  end_gate[c] = g; how[c] = by
  delete open[s]
  if (by == "power") return
  for (d = 0; d < SLOTS; d++) {
    if (!(d in open) || from_gate[open[d]] > from_gate[c] || ticks_of[d] > ticks_of[s]) continue
    with[open[d]] = c
    ends(d, g, by_clock(open[d], g) ? "clock" : "with")
  }
}

# ---- how many ticks stand before each gate: P[], the least that fit, found group by group of cycles that overlap
# A cycle runs still at gate still[c]; where it then ends, its group reaches that gate, else beyond it.
function place_ticks(   c, first, reach) {
  for (c = 1; c <= cycles; c++) {
    still[c] = how[c] == "open" ? gates : how[c] == "power" ? end_gate[c] : end_gate[c] - 1
    if (how[c] != "open" && how[c] != "power") ending[end_gate[c]] = ending[end_gate[c]] " " c
  }
  P[0] = done = 0
  for (c = 1; c <= cycles && !loop; c = first) {
    reach = still[c] + 1
    for (first = c + 1; first <= cycles && from_gate[first] < reach; first++) if (still[first] + 1 > reach) reach = still[first] + 1
    if (reach > gates) reach = gates
    fill(from_gate[c])
    place_group(c, first - 1, from_gate[c], reach)
  }
  fill(gates)
  if (unfit && (!loop || unfit < loop)) { loop = outer = unfit; inner = with[unfit] }
}
function fill(g) { while (done < g) { done++; P[done] = P[done - 1] } }
# Where no numbers fit, a cycle is only held to run as long as it was seen to: up to the last control byte that was not
# acknowledged.
function place_group(c1, c2, lo, hi,   c, base) {
  base = P[lo]
  if (fits(c1, c2, lo, hi, base)) return
  for (c = c1; c <= c2; c++) if (how[c] != "power") still[c] = busy_gate[c]
  if (fits(c1, c2, lo, hi, base)) return
  P[lo] = base; loop = c1
}
function fits(c1, c2, lo, hi, base,   g, changed) {
  for (g = lo; g <= hi; g++) { P[g] = base; delete cause[g] }
  done = hi
  do {
    rise(lo, hi)
    changed = push(c1, c2)
    if (changed && looped(c1, c2, lo)) return 0
  } while (changed)
  return 1
}
function rise(lo, hi,   g, i, m, w, c) {
  for (g = lo + 1; g <= hi; g++) {
    if (P[g - 1] > P[g]) { P[g] = P[g - 1]; cause[g] = 0 }
    if (!(g in ending)) continue
    m = split(ending[g], w, " ")
    for (i = 1; i <= m; i++) {
      c = w[i]
      if (P[from_gate[c]] + ticks_of[slot_of[c]] > P[g]) { P[g] = P[from_gate[c]] + ticks_of[slot_of[c]]; cause[g] = c }
    }
  }
}
# Where a cycle would end too early, ticks move to before it.
function push(c1, c2,   c, least, changed) {
  for (c = c1; c <= c2; c++) {
    least = P[still[c]] - ticks_of[slot_of[c]] + 1
    if (least > P[from_gate[c]]) { P[from_gate[c]] = least; cause[from_gate[c]] = -c; changed = 1 }
  }
  return changed
}
# Whether the causes run in a ring, so that no numbers fit: then `inner` is a cycle that asks for too many ticks,
# `outer` one that allows too few.
function looped(c1, c2, lo,   c, g, earlier) {
  for (c = c1; c <= c2; c++) {
    earlier = walks - (c - c1); walks++
    for (g = from_gate[c]; (g > lo || (lo in cause)) && walked[g] <= earlier; g = before(g)) walked[g] = walks
    if (walked[g] == walks) { ring(g); return 1 }
  }
  return 0
}
function before(g,   c) {
  c = cause[g] + 0
  return c > 0 ? from_gate[c] : c < 0 ? still[-c] : g - 1
}
function ring(g,   at, round) {
  at = g; inner = outer = 0
  for (round = 1; round <= 2; round++) do {
    if (cause[at] > 0 && !inner) inner = cause[at]
    if (cause[at] < 0 && inner && !outer && slot_of[-cause[at]] != slot_of[inner]) outer = -cause[at]
    at = before(at)
  } while (at != g)
}

# ---- rows
function time_or(when) { return when == "" ? "-" : sprintf("%.0f", when) }
function event_rows(last,   i, g, k) {
  for (i = 1; i <= last; i++) {
    g = (i in gate_row) ? gate_row[i] : 0
    if (g) for (k = P[g - 1]; k < P[g]; k++) print "E\t" records++ "\t" sprintf("%.0f", gate_at[g]) "\t-\tt\t6\t0\t0\t-\t0"
    if (g || (i in is_named)) record_of[i] = records
    print "E\t" records++ "\t" row[i]
  }
}
function cycle_rows(last,   c, end) {
  for (c = 1; c <= last; c++) {
    end = (c in told_gate) ? told_gate[c] : end_gate[c]
    print "K\t" slot_of[c] "\t" record_of[stop_row[c]] "\t" time_or(stop_at[c]) "\t" \
      ((c in told_gate) ? "seen" : how[c]) "\t" (end == "" ? "-" : record_of[row_of[end]]) "\t" \
      (end == "" ? "-" : time_or(gate_at[end])) "\t" time_or(busy_at[c]) "\t" (c in ended_by ? ended_by[c] : "-")
  }
}
# A command that some slot acknowledged while a cycle of this one counts as running, and no later NACK shows that it
# did.
function doubt_rows(last,   i, c) {
  for (i = 1; i <= doubts && doubt_row[i] <= last; i++) {
    c = doubt[i]
    if (ran_at[c] == "" || ran_at[c] < doubt_at[i])
      print "U\t" slot_of[c] "\t" record_of[doubt_row[i]] "\t" time_or(doubt_at[i]) "\t" \
        doubt_byte[i] "\t" time_or(stop_at[c]) "\t" doubt_row[i] "," slot_of[c]
  }
}
function span(c, g) { return slot_of[c] "\t" time_or(stop_at[c]) "\t" (g == "" ? "-" : time_or(gate_at[g])) }
function end_of_rows(   c, i, last, at) {
  place_ticks()
  last = loop ? stop_row[loop] : n
  for (c = 1; c <= cycles; c++) is_named[stop_row[c]] = 1
  for (i = 1; i <= doubts; i++) is_named[doubt_row[i]] = 1
  event_rows(last)
  cycle_rows(loop ? loop - 1 : cycles)
  doubt_rows(last)
  for (i = 1; i <= omissions; i++) print omitted[i]
  for (i in left_out) { split(i, at, SUBSEP); print "M\t" at[1] "\t" at[2] "\t" left_out[i] }
  print "N\t" exchange + 0 "\t" wires + 0 "\t" besides + 0 "\t" P[loop ? from_gate[loop] : gates] + 0 "\t" first_time "\t" last_time
  if (loop) print "F\t" span(inner, end_gate[inner]) "\t" span(outer, outer == unfit ? unfit_gate : busy_gate[outer]) "\t" time_or(stop_at[loop])
}

BEGIN {
  FS = "\t"; told_slots(); control = -2
  m = split(heard, word, " ")
  for (i = 1; i <= m; i++) forced[word[i]] = 1
}
$1 == "Q" { heeds[$2, $3] = $4; out[$2, $3] = $5 }
$1 == "C" { could[$2, $3, $4] = 1 }
$1 == "B" { may_begin[$2, $3] = 1 }
$1 == "W" { n++; take($2 + 0, $3, $4, $5, $6, $7, $8, $9) }
$1 == "O" { omitted[++omissions] = $0 }
END { end_of_rows() }
