# The story of a run (story.awk) as a VCD file, for ./plungerhen wave: the two wires at 100 kHz, and what is beside
# them. CASE in the environment is the case's name; bench.awk is read before this.
#
# SCL and SDA stand high at rest. SDA moves while SCL is low, two microseconds behind its fall, but for a start (it
# falls while SCL is high) and a stop (it rises). Where nobody drives it, SDA goes up. Comments stand before the first
# time, each with its own, and a temperature, in sixteenths of a degree, is a real: at a comment between times, or a
# vector, sigrok's reader (libsigrok 0.5.2) drops what follows. A sensor's EVENT pin is a wire too, where the run uses it,
# and an older memory's write-protect pin, where the run sets it.

function at(time, text) {
  if (time != clock) { print "#" time; clock = time }
  print text
}
function scl(time, level) { if (level != scl_is) at(time, level "c"); scl_is = level }
function sda(time, level) { if (level != sda_is) at(time, level "d"); sda_is = level }

# ---- the wires
function start(t) {
  if (!scl_is || !sda_is) { scl(t, 0); sda(t + 2, 1); scl(t + 5, 1) }
  sda(t + 10, 0)
}
function stop(t) {
  if (!scl_is || sda_is) { scl(t, 0); sda(t + 2, 0); scl(t + 5, 1) }
  sda(t + 10, 1)
}
function clocked(t, bit) { scl(t, 0); sda(t + 2, bit); scl(t + 5, 1) }
function byte(t, value, ninth,   weight) {
  for (weight = 128; weight >= 1; weight /= 2) { clocked(t, int(value / weight) % 2); t += 10 }
  clocked(t, ninth)
  scl(t + 10, 0)
}
function rest(t) { if (!scl_is) sda(t + 2, 1) }
function hold(t) { scl(t, 0); sda(t + 2, 1) }

function from_hex(digits) { return 16 * (index("0123456789ABCDEF", substr(digits, 1, 1)) - 1) + index("0123456789ABCDEF", substr(digits, 2, 1)) - 1 }

# ---- what comes before the first time
function header(   i, name) {
  name = ENVIRON["CASE"]; gsub(/\$/, "?", name)      # a $ could end the comment
  print "$comment the run of " name " on the two wires, made by ./plungerhen wave $end"
  for (i = 1; i <= ncomments; i++) print "$comment at " comments[i] " $end"
  print "$timescale 1 us $end"
  print "$scope module plungerhen $end"
  print "$var wire 1 c SCL $end"
  print "$var wire 1 d SDA $end"
  print "$var wire 1 p power $end"
  for (i = 0; i < SLOTS; i++) {
    if (!(i in present)) continue
    print "$var wire 1 w" i " slot" i "_write_cycle $end"
    if (i in voltage_set) print "$var wire 1 v" i " slot" i "_voltage $end"
    if (i in temperature_set) print "$var real 64 t" i " slot" i "_temperature $end"
    if (i in pin_used) print "$var wire 1 e" i " slot" i "_event $end"
    if (i in guard_set) print "$var wire 1 g" i " slot" i "_write_protect $end"
  }
  print "$upscope $end"
  print "$enddefinitions $end"
  print "#0"
  print "$dumpvars"
  print "1c"; print "1d"; print "1p"
  for (i = 0; i < SLOTS; i++) {
    if (i in present) print "0w" i
    if (i in voltage_set) print "0v" i
    if (i in pin_used) print pin_is[i] "e" i
    if (i in guard_set) print "0g" i
  }
  print "$end"
  scl_is = sda_is = 1; clock = 0
}

# ---- one event
function refused() { return $10 ~ /^R|^short/ }
function comment(text) { comments[++ncomments] = $4 " us, line " $3 ": " text }
function remark() {
  if ($10 ~ /^R/) comment($9 " is refused (" substr($10, 2) ") and does not reach the wires")
  else if ($10 == "short") comment($9 " is cut short and does not reach the wires")
  else if ($6 == 5) comment("timeout, SCL is held low, for longer than is drawn here")
  else if ($6 == 7) voltage_set[$7] = 1
  else if ($6 == 9) temperature_set[$7] = 1
  else if ($6 == 10) guard_set[$7] = 1
}
function event(   t, kind) {
  if (refused()) return
  t = $4; kind = $6
  if (kind == 1) start(t)
  else if (kind == 2) byte(t, $8, $10 == "N")
  else if (kind == 3) byte(t, from_hex(substr($10, 2)), $8 == 0)
  else if (kind == 4) stop(t)
  else if (kind == 5) hold(t)
  else rest(t)
  if (kind == 8) { at(t + 5, "0p"); at(t + 10, "1p") }
  if (kind == 9) at(t + 10, "r" $8 " t" $7)
}
function state() {
  if (($4 > 0) != cycle[$3]) { cycle[$3] = $4 > 0; at($2, cycle[$3] "w" $3) }
  if (($3 in voltage_set) && $6 != voltage[$3]) { voltage[$3] = $6; at($2, $6 "v" $3) }
  if (($3 in pin_used) && $8 != pin_is[$3]) { pin_is[$3] = $8; at($2, $8 "e" $3) }
  if (($3 in guard_set) && $10 != guard[$3]) { guard[$3] = $10; at($2, $10 "g" $3) }
}

{ row[++rows] = $0 }
$1 == "P" { present[$2] = 1; cycle[$2] = voltage[$2] = guard[$2] = 0 }
$1 == "E" { remark() }
$1 == "S" {
  if (!($3 in pin_is)) pin_is[$3] = $8
  if (uses_pin($7, $8, pin_is[$3])) pin_used[$3] = 1
}
END {
  header()
  for (r = 1; r <= rows; r++) {
    $0 = row[r]
    if ($1 == "E") event()
    if ($1 == "S") state()
    if ($1 == "Z") print "#" $2
  }
}
