# The story of a run, for ./plungerhen wave: what a case asks for, what the bus answered, where each slot then stood,
# and when, on wires at 100 kHz.
#
# Reads the case's plan and the lines of the program `watch` (watched.awk), which have the answers and the slots' numbers.
# Writes rows, fields parted by tabs, times in microseconds:
#
#   P  slot, kind, write cycle in ticks: a present slot
#   C  text: a comment line of the case, or a line of its setup
#   E  number from 1, line in the case, from, to, kind, slot, value, in words, answer, expected answer (? if the case
#      says none), comment behind it
#   S  time, slot, ticks left of the write cycle, protection of blocks 0 to 3 (as 0110), high voltage (0, 1), whether its
#      EVENT pin is asserted (0, 1), that pin's level (0 low, also where there is no sensor, 1 high), whether protection
#      is permanent (0, 1), its write-protect pin (0, also where there is none, 1): each slot at first, then where it
#      changes
#   Z  time: the end
#
# bench.awk and watched.awk are read before this.

# How long an event takes: nine clocks for a byte, a millisecond for a tick; a condition, and what is not on the wires,
# as two clocks. What is refused takes no time.
function length_of(kind, answer) {
  if (answer ~ /^R|^short/) return 0
  return kind == 6 ? 1000 : kind == 2 || kind == 3 ? 90 : 20
}
# When it shows in a slot: at the end of a tick, and of a byte, which is its ACK; else in the middle, where the wires make
# a condition.
function shows(kind, from, to) { return kind == 6 || kind == 2 ? to : from + 10 }

# The slots that the lines taken last have told.
function state_rows(at,   i, slot, line, now, b) {
  for (i = 1; i <= nmoved; i++) {
    slot = moved[i]; line = stands[slot]
    now = number_of(line, "left") "\t"
    for (b = 0; b < 4; b++) now = now number_of(line, "protection" b)
    now = now "\t" number_of(line, "voltage") "\t" number_of(line, "asserted") "\t" number_of(line, "level")
    now = now "\t" number_of(line, "permanent") "\t" number_of(line, "write-protect")
    if (now != stood[slot]) print "S\t" at "\t" slot "\t" now
    stood[slot] = now
  }
}

function setup_rows(pairs,   w, i) {
  split(pairs, w, " ")
  for (i = 0; i < SLOTS; i++) if (w[2 * i + 1]) print "P\t" i "\t" w[2 * i + 1] "\t" w[2 * i + 2]
  set_up(pairs)
  state_rows(0)
}
function event_row(   answer, to) {
  answer = answer_to(++n)
  to = now + length_of($7, answer)
  print "E\t" n "\t" $2 "\t" now "\t" to "\t" $7 "\t" $8 "\t" $9 "\t" $4 "\t" answer "\t" $5 "\t" $6
  state_rows(shows($7, now, to))
  now = to
}

END {
  now = 100
  for (r = 1; r <= nrows; r++) {
    $0 = rows[r]
    if ($1 == "P") setup_rows($2)
    if ($1 == "C") print "C\t" $3
    if ($1 == "E") event_row()
  }
  said_all()
  print "Z\t" now + 100
}
