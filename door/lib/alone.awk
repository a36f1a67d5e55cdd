# What one slot, alone on a bus, makes of the events of an export, for ./plungerhen capture --sigrok and --saleae
# (analyser): asked of the program `watch`, in a run of the slot's own. Behind every stop of it come as many ticks as a
# write cycle of the slot has, so that each cycle ends at once. Of a control byte the run then says whether the slot,
# were it ready, would acknowledge it, and of a stop whether it begins a write cycle.
#
# What the slot does not hear since its cycle runs, ticks.awk finds out: its rows M say what is left out of this run.
# Reads these, and the events (the rows W of exports.awk and beside.awk, in order); bench.awk is read before this.
#
#   slot  its number
#   mode  bytes  the setup and the records of the run, in lines of octal escapes of printf
#         facts  what `watch` wrote of it, in the file `lines`, as rows, fields parted by tabs. What is not written of
#                this run ends with status 1.
#
#   C  byte, slot: a control byte that such a slot, when fresh, acknowledges; without high voltage (0), with it (1), or
#      (both) as well without as with it, and then stands alike
#   Q  event, slot: at this control byte, which it would acknowledge; whether it then stands otherwise than deaf (1, 0);
#      at which level the byte is to be left out if the slot does not hear it: 0 not at all, since nothing of it lasts
#      to the next start; 1 what is behind it, up to the next start; 2 the byte itself, too
#   B  event, slot: at this stop a write cycle begins, or would, had it not refused a byte to write

# ---- the run: `said` is a record's line, `stands` the slot's last
function read_on(   got) {
  said = ahead
  while ((got = getline ahead <lines) > 0 && is_slot(ahead)) stands = ahead
  if (got <= 0) ahead = ""
}
function no_run() { failed = 1; exit 1 }
function feed(kind, of, val) {
  if (mode == "facts") { if (ahead == "") no_run(); read_on(); return }
  printf "%s", record_octals(kind, of, val)
  if (++records % 64 == 0) printf "\n"
}
function begin(   i) {
  if (mode == "facts") { read_on(); if (index(stands, slot " kind=") != 1) no_run(); return }
  for (i = 0; i < SLOTS; i++) printf "%s", i == slot ? octal(kind_of[i]) octal(ticks_of[i]) : octal(0) octal(0)
}
# First every control byte, without high voltage and with it; then the slot is to be fresh again.
function try_all(   first, on, byte, after, without) {
  first = stands
  for (on = 0; on <= 1; on++) {
    feed(7, slot, on)
    for (byte = 0; byte < 256; byte++) {
      feed(1, 0, 0); feed(2, 0, byte)
      if (said != "A") continue
      fact("C\t" byte "\t" slot "\t" on)
      after = stands
      sub(/ voltage=1 /, " voltage=0 ", after)
      if (!on) without[byte] = after
      else if (without[byte] == after) fact("C\t" byte "\t" slot "\tboth")
    }
    feed(8, 0, 0)
  }
  feed(7, slot, 0)
  if (stands != first) no_run()
}
function fact(text) { if (mode == "facts") print text }

# ---- the events
function take(n, kind, of, val,   i, before) {
  if (kind == 1) { fresh = 1; muted = refused = 0 }
  if (kind == 8) running = 0
  if (kind == 2 && fresh) { control_byte(n, val); return }
  if (muted && kind >= 2 && kind <= 4) return
  before = stands
  feed(kind, of, val)
  if (kind == 1) started()
  if (kind == 2 && said == "N" && number_of(before, "phase") == 4) refused = 1
  if (kind != 4) return
  if (refused || (number_of(before, "left") == 0 && number_of(stands, "left") > 0)) fact("B\t" n "\t" slot)
  if (n in cut) running = 1
  for (i = 0; i < ticks_of[slot] && !running; i++) feed(6, 0, 0)
}
function control_byte(n, val,   deaf) {
  fresh = asked = 0; muted = level[n]
  if (level[n] == 2) { fact("Q\t" n "\t" slot "\t" stood[n] "\t2"); return }
  deaf = stands
  sub(/ phase=[0-9]+ /, " phase=2 ", deaf)
  feed(2, 0, val)
  if (said != "A") return
  asked = n; otherwise = stands != deaf
}
# At a start nothing is left of an exchange but what lasts.
function started() {
  if (asked) fact("Q\t" asked "\t" slot "\t" otherwise "\t" level[asked] + (stands != at_start))
  asked = 0; at_start = stands
}

BEGIN { FS = "\t"; told_slots(); begin(); try_all() }
$1 == "M" && $2 == slot && $4 == "cut" { cut[$3] = 1; next }
$1 == "M" && $2 == slot { level[$3] = $4; stood[$3] = $5 }
$1 == "W" { take(++events, $6, $7, $8) }
END {
  if (failed) exit 1
  feed(1, 0, 0); started()
  if (mode == "bytes") printf "\n"
  exit ahead != ""
}
