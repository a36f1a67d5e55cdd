# What happened beside the wires, told in the words of the cases with a time in front, read for ./plungerhen capture
# --beside (analyser). bench.awk and words.awk are read before this.
#
# From lines such as `at 12.5 ms voltage 0 on` to rows, fields parted by tabs, the time in nanoseconds:
#
#   W  time, the same once more, line number, b, kind, slot, value, -
#   Z  the end
#
# or, last, B: line number, what is wrong there.

# ---- the time in front
function time_of(digits, unit,   scale) {
  scale = unit == "us" ? 1e3 : unit == "ms" ? 1e6 : unit == "s" ? 1e9 : 0
  if (!scale) bad("\"" unit "\" is no unit of time: us, ms and s are")
  if (digits !~ /^-?[0-9]+(\.[0-9]+)?$/ || length(digits) > 30) bad("\"" digits "\" is no time, which is a decimal number, as in: at 12.5 ms")
  scale *= digits
  if (scale > 9e15 || scale < -9e15) bad("the time " digits " " unit " is more than 100 days away")
  return scale < 0 ? -int(0.5 - scale) : int(scale + 0.5)
}

# ---- the events behind it
function allowed(word) {
  if (word ~ /^(start|stop|byte|read|write|look|set|get)$/)
    bad("\"" word "\" is on the wires: only what is not on them stands here (voltage, temperature, write-protect, power, timeout)")
  if (word == "tick") bad("ticks are not told: they are placed where the wires show that a write cycle has ended")
  if (word ~ /^(event|raw|pin)$/) bad("\"" word "\" can't stand here: say voltage, temperature, write-protect, power or timeout")
}
function one(i,   r, kind, slot, v) {
  split(record_of(code[i]), r, "\t"); kind = r[1]; slot = r[2] + 0; v = r[3]
  if (kind == 7 || kind == 9 || kind == 10) {
    if (!(slot in kind_of))
      bad("slot " slot " is not told: say --slot " (slot < SLOTS ? slot : "N") " " kinds_listed(", ", " or ") ", and its write cycle")
    if (kind == 9 && !has_sensor(kind_of[slot])) bad("slot " slot " is told as " KIND[kind_of[slot]] ": it has no sensor that feels a temperature")
    if (kind == 10 && !is_older(kind_of[slot])) bad("slot " slot " is told as " KIND[kind_of[slot]] ": it has no write-protect pin")
  }
  if (kind == 9 && (v < -640 || v > 2000)) bad("the temperature " v " is not from -640 to 2000 sixteenths of a degree")
  if (kind == 8 && (v < 0 || v > 16))
    bad("the number behind power is " v ", and must be from 0 to 16, the bytes stored of a write cycle that it cuts")
  printf "W\t%.0f\t%.0f\t%d\tb\t%d\t%d\t%d\t-\n", when, when, NR, kind, slot, v
}
function beside_line(   w, n, i, part, rest) {
  if (arrow) bad("what happens beside the wires has no answer")
  n = split(left, w, " ")
  if (w[1] != "at" || n < 4) bad("the form is: at TIME us|ms|s EVENT, as in: at 12.5 ms voltage 0 on")
  when = time_of(w[2], w[3])
  if (timed && when < last) bad("the times go backwards: " w[2] " " w[3] " stands behind " last_told)
  timed = 1; last = when; last_told = w[2] " " w[3]
  rest = left; sub(/^at +[^ ]+ +[^ ]+ +/, "", rest)
  n = split(rest, part, ";")
  for (i = 1; i <= n; i++) { split(trim(part[i]), w, " "); allowed(w[1]) }
  input = ""
  event_list(rest)
  for (i = 1; i <= nline; i++) one(i)
}

BEGIN { told_slots() }
{ if (parted()) beside_line() }
END { if (!wrong) print "Z" }
