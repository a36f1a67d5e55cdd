# What the plan of a case (reading.awk) lets one know of a bench that is not saved, for ./plungerhen save.
#
#   mode  busy   why the bench is not quiet (refusal 8): the exchange that is open, or the write cycle that runs, by the
#                lines of the program `watch`, which stand behind the plan and a line GOT
#         setup  why the setup is refused (5)
#         short  where the case is cut short
#         pairs  the numbers of the setup, an absent slot's length as 0
#
# What the case can't have been refused for ends with status 1 and a line that says so. bench.awk is read before this.

# ---- busy: a slot's line behind event n. `inside` are the slots in an exchange, which began in line `open`.
function stands(line,   slot, phase) {
  slot = line + 0; phase = number_of(line, "phase") != 0
  if (phase && !inside) open = line_of[n]
  inside += phase - in_phase[slot]
  in_phase[slot] = phase
  left[slot] = number_of(line, "left")
  if (number_of(line, "length") > longest) longest = number_of(line, "length")
}
function busy(   slot) {
  if (inside) return "the bench is not quiet: the exchange that begins in line " open " is not ended (a stop ends it)"
  for (slot in left) if (left[slot]) break
  if (!left[slot]) fail("in the program watch no slot is in an exchange or in a write cycle")
  return "the bench is not quiet: a write cycle runs. Behind the last stop, in line " stopped ", " \
    (ticked == 1 ? "comes 1 tick" : ticked ? "come " ticked " ticks" : "comes no tick") \
    ", and the slots here take up to " longest " (tick " longest " lets it end)"
}

function bad_setup(   i, why) {
  for (i = 0; i < SLOTS && why == ""; i++) why = bad_pair(i, pair[2 * i + 1], pair[2 * i + 2])
  if (why == "") fail("the setup is good")
  return why
}
function cut_at() {
  if (length(bytes) < 8 * SLOTS) return "after " length(bytes) / 4 " of " 2 * SLOTS " bytes of the setup"
  if (length(bytes) % 16 == 0) fail("every record is whole")
  return "in its last record"
}

watched && is_slot($0) { stands($0) }
watched && !is_slot($0) { n++ }
$0 == "GOT" { watched = 1 }
$1 == "I" { bytes = $4 }
$1 == "P" { split($2, pair, " ") }
$1 == "E" { line_of[++events] = $2 }
$1 == "E" && $7 == 4 { stopped = $2; ticked = 0 }
$1 == "E" && $7 == 6 { ticked++ }
END {
  if (mode == "busy") print busy()
  if (mode == "setup") print bad_setup()
  if (mode == "short") print cut_at()
  for (i = 1; i < 2 * SLOTS && mode == "pairs"; i += 2)
    printf "%d %d%s", pair[i], pair[i] ? pair[i + 1] : 0, i + 1 < 2 * SLOTS ? " " : "\n"
}
