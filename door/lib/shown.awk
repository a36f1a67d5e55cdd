# A saved bench in words, for ./plungerhen save, show and resume: what the program `show` says of it, a line for each
# present slot, in the file `lines`; and its memory, from its bytes on standard input, as od -tu1 gives them.
#
#   mode  setup  the numbers of its setup
#         sum    how long it is and which slots there are, in words
#         show   all of it in words
#   size  how many bytes it has
#
# bench.awk is read before this.

# a number of a slot, by its name
function of(i, name) { return (i in slot) ? number_of(slot[i], name) : 0 }

function sum(   i, n, list) {
  for (i = 0; i < SLOTS; i++) if (i in slot) list[++n] = i " (" kind_words(of(i, "kind")) ")"
  return plural(size, "byte") ", " (n ? (n == 1 ? "slot " : "slots ") joined(list, n) : "every slot absent")
}

# Sixteenths of a degree: bits 12 to 0, two's complement.
function degrees(v,   text) {
  v %= 8192
  if (v >= 4096) v -= 8192
  text = sprintf("%.4f", v / 16)
  sub(/\.?0+$/, "", text)
  return text (text == "1" || text == "-1" ? " degree" : " degrees")
}
function bit_of(v, weight) { return int(v / weight) % 2 }
function configuration_words(v,   text) {
  text = "hysteresis " substr("0  1.53  6  ", 3 * (int(v / 512) % 4) + 1, 3)
  sub(/ +$/, "", text)
  text = text " degrees, " (bit_of(v, 256) ? "shut down" : "not shut down")
  text = text (bit_of(v, 128) ? ", critical limit locked" : "") (bit_of(v, 64) ? ", high and low limit locked" : "")
  return text (int(v / 64) % 4 ? "" : ", no lock")
}
# The pin as the program tells it, and behind a semicolon what bits 3 to 0 of the configuration are called.
function pin_settings(v) {
  return (bit_of(v, 8) ? "enabled" : "disabled") ", active " (bit_of(v, 2) ? "high" : "low") ", " \
    (bit_of(v, 1) ? "interrupt" : "comparator") " mode" (bit_of(v, 4) ? ", critical flag alone" : "")
}
function show_pin(i,   w) {
  split(pin_words(slot[i]), w, " ")
  printf "  %-17s  %-5s  %s\n", "EVENT pin", w[2], w[1] (of(i, "pending") ? ", a change is pending" : "") "; " pin_settings(of(i, "configuration"))
}
function temperature_words(v,   text) {
  text = (bit_of(v, 32768) ? ", critical" : "") (bit_of(v, 16384) ? ", above high" : "") (bit_of(v, 8192) ? ", below low" : "")
  return degrees(v) (text == "" ? ", no flag" : text)
}
function register_words(r, v) {
  if (r == 1) return configuration_words(v)
  if (r <= 4) return degrees(v)
  if (r == 5) return temperature_words(v)
  if (r == 6) return "steps of " substr("0.5   0.25  0.125 0.0625", 6 * v + 1, 6)
  return v ? "on" : "off"
}
function show_sensor(i,   r, text) {
  print "  pointer " hex(of(i, "pointer"), 2)
  for (r = 1; r <= REGISTERS; r++) {
    text = register_words(r, of(i, REGISTER_NAME[r])); sub(/ +$/, "", text)
    printf "  %s %-13s  %s  %s\n", hex(REGISTER[r], 2), REGISTER_NAME[r], hex(of(i, REGISTER_NAME[r]), 4), text (r == 6 ? " degrees" : "")
  }
  show_pin(i)
}

# The lines of sixteen bytes in which one is not FFh.
function show_memory(i,   page, j, v, any, digits, text, shown) {
  for (page = 0; page < bytes_of(of(i, "kind")); page += 16) {
    digits = text = ""; any = 0
    for (j = 0; j < 16; j++) {
      v = b[memory + page + j]
      if (v != 255) any = 1
      digits = digits (j == 8 ? "  " : " ") sprintf("%02X", v)
      text = text (v >= 32 && v <= 126 ? sprintf("%c", v) : ".")
    }
    if (!any) continue
    if (!shown++) print "  memory, but for lines of FFh"
    printf "  %s %s   %s\n", hex(page, 3), digits, text
  }
  if (!shown) print "  memory: FFh in every byte"
  memory += bytes_of(of(i, "kind"))
}
function show_slot(i) {
  print "slot " i ": " kind_words(of(i, "kind")) ", write cycle of " plural(of(i, "length"), "tick")
  print "  " protection_told(slot[i]) ", " half_told(slot[i]) "counter " hex(of(i, "counter"), 2) ", " voltage_told(slot[i])
  if (has_sensor(of(i, "kind"))) show_sensor(i)
  show_memory(i)
}
function show_slots(   i, last, which) {
  for (i = 0; i < SLOTS; i++) {
    if (i in slot) { show_slot(i); continue }
    for (last = i; last < SLOTS - 1 && !(last + 1 in slot); last++) ;
    which = last > i ? "slots " i (last > i + 1 ? " to " : " and ") last : "slot " i
    print which ": absent"
    i = last
  }
}

BEGIN {
  while ((getline line <lines) > 0) slot[line + 0] = line
  memory = 3 + 2 * SLOTS + 3      # behind the field of the setup, and the tag and length of its own
}
{ for (i = 1; i <= NF; i++) b[nbytes++] = $i + 0 }
END {
  if (mode == "setup") for (i = 0; i < SLOTS; i++) printf "%d %d%s", of(i, "kind"), of(i, "length"), i < SLOTS - 1 ? " " : "\n"
  if (mode == "sum") print sum()
  if (mode == "show") show_slots()
}
