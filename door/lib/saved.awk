# Where a saved bench (request P5, "Saving a bench overnight", with the fields of P8 and P9) that the program `show` has
# refused departs from the form, and why, in words, for ./plungerhen show and resume: its bytes on standard input, as od
# -tu1 gives them.
#
#   size  how many bytes it has; what stands behind byte 65,535 is not read, since a form is shorter
#
# What is accepted and what refused only the program says. bench.awk is read before this.

# the bits of v that are not in mask
function outside(v, mask,   bit, rest) {
  for (bit = 1; bit <= v; bit *= 2) if (int(v / bit) % 2 && !(int(mask / bit) % 2)) rest += bit
  return rest + 0
}

# ---- the form, byte by byte: `at` is the next place; `departure` is the first that departs.
function depart(where, why) {
  if (departure == "")
    departure = (over ? "behind field " field : "field " field " (" title[field] ")") ", byte " hex(where, 4) " (" where "): " why
}
function next_byte(what) {
  if (at >= nbytes) depart(at, "the form ends here, where " what " is to come")
  return b[at++] + 0
}
# What may stand at the place before `at`, and what stands there.
function must(good, sentence) { if (!good) depart(at - 1, sentence) }
function bounded(what, most, form, why,   v) { v = next_byte(what); must(v <= most, what " is " sprintf(form, v) ", " why) }

# a field's tag and its length, `all`, which is so long for the reason `why`
function for_each(each, count, what) { return each " for each of " plural(count, what) }
function head(tag, all, why,   v) {
  field = tag
  v = next_byte("the tag " tag)
  must(v == tag, "the tag is " v ", and must be " tag)
  v = next_byte("the length")
  must(v == int(all / 256), "the length has " hex(v, 2) " as its high byte, and must be " hex(all, 4) " (" all "), " why)
  v += 255 * v + next_byte("the length's low byte")
  must(v == all, "the length is " hex(v, 4) " (" v "), and must be " hex(all, 4) " (" all "), " why)
}
function read_pair(i,   ticks, why) {
  kind[i] = next_byte("slot " i "'s kind")
  why = bad_pair(i, kind[i], 1); sub(/, not/, ", which is not", why)
  must(why == "", why)
  ticks = next_byte("slot " i "'s write-cycle length")
  why = bad_pair(i, kind[i], ticks)
  must(why == "", why)
  must(kind[i] || !ticks, "slot " i " is absent, and its write-cycle length is " ticks ", not 0")
  if (kind[i]) present++
  if (has_sensor(kind[i])) sensors++
  if (is_older(kind[i])) older++
}
function read_state(i, of) {
  if (is_older(kind[i])) {
    bounded(of "protection", 1, "%02Xh", "and of an older memory block 0 alone is protected, 00h or 01h")
    guarded[i] = b[at - 1]
    bounded(of "half", 0, "%d", "and an older memory has half 0 alone")
  } else {
    bounded(of "protection", 15, "%02Xh", "and there are four blocks, 00h to 0Fh")
    bounded(of "half", 1, "%d", "not 0 or 1")
  }
  next_byte(of "counter")
  bounded(of "high voltage", 1, "%d", "not 0 or 1 (off, on)")
}
function read_register(what, mask,   v) {
  v = next_byte(what)
  must(!outside(v, int(mask / 256)), what " has " hex(v, 2) " as its high byte, and holds no bit outside " hex(mask, 4))
  v = next_byte("the low byte of " what)
  must(!outside(v, mask % 256), what " has " hex(v, 2) " as its low byte, and holds no bit outside " hex(mask, 4))
}
function read_sensor(i, of,   r) {
  bounded(of "pointer", 9, "%02Xh", "not 00h to 09h")
  for (r = 1; r <= REGISTERS; r++) read_register(of "register " hex(REGISTER[r], 2) " (" REGISTER_NAME[r] ")", kept[r])
  bits[i] = b[at - 13] % 16      # 3 to 0 of register 01h
}
# The two last fields are there only where one of their bytes is not 0.
function read_pending(   i, from, any, v) {
  from = at
  head(5, sensors, for_each(1, sensors, "sensor"))
  for (i = 0; i < SLOTS; i++) {
    if (!has_sensor(kind[i])) continue
    v = next_byte("slot " i "'s pending change")
    must(v <= 1, "slot " i "'s pending change is " v ", not 0 or 1")
    must(!v || bits[i] == 9 || bits[i] == 11, "slot " i " has a pending change, and none can pend by its register 01h: " \
      "bits 3 and 0 must be 1 there, and bit 2 must be 0")
    any += v
  }
  if (!any) depart(from, "no change is pending, and then this field is left out")
}
function read_older(   i, from, any, v) {
  from = at
  head(6, older, for_each(1, older, "older slot"))
  for (i = 0; i < SLOTS; i++) {
    if (!is_older(kind[i])) continue
    v = next_byte("slot " i "'s permanent protection and write-protect pin")
    must(v <= 3, "slot " i "'s permanent protection (bit 0) and write-protect pin (bit 1) are " hex(v, 2) ", not 00h to 03h")
    must(v % 2 == 0 || guarded[i], "slot " i "'s protection is permanent, and by field 3 it is not protected")
    any += v
  }
  if (!any) depart(from, "nothing is protected for ever and no write-protect pin is on, and then this field is left out")
}
function memory_why() {
  if (!older) return for_each(512, present, "present slot")
  return for_each(256, older, "older slot") (present > older ? " and " for_each(512, present - older, "other present slot") : "")
}
function read_form(   i, j, all, may) {
  head(1, 2 * SLOTS, for_each("two", SLOTS, "slot"))
  for (i = 0; i < SLOTS; i++) { read_pair(i); if (kind[i]) all += bytes_of(kind[i]) }
  head(2, all + 0, memory_why())
  for (i = 0; i < SLOTS; i++) for (j = 0; kind[i] && j < bytes_of(kind[i]); j++) next_byte("byte " j " of slot " i "'s memory")
  head(3, 4 * present, for_each(4, present, "present slot"))
  for (i = 0; i < SLOTS; i++) if (kind[i]) read_state(i, "slot " i "'s ")
  head(4, 15 * sensors, for_each(15, sensors, "sensor"))
  for (i = 0; i < SLOTS; i++) if (has_sensor(kind[i])) read_sensor(i, "slot " i "'s ")
  if (b[at] == 5) read_pending()
  if (b[at] == 6) read_older()
  over = 1
  may = field == 4 ? "5" : ""
  if (older && field < 6) may = may (may == "" ? "6" : " or 6")
  if (at < size)
    depart(at, "the form ends before this byte" (may == "" ? "" : ", or has the tag " may " here") ", and " \
      (size - at == 1 ? "1 byte follows" : sprintf("%.0f", size - at) " bytes follow"))
}

BEGIN {
  split("setup;memory;protection, half, counter, high voltage;sensors;pending changes;permanent protection, write-protect pins", title, ";")
  split("1999 8188 8188 8188 65535 3 1", kept, " ")      # 07CFh, 1FFCh three times, FFFFh, 0003h, 0001h
}
{ for (i = 1; i <= NF; i++) b[nbytes++] = $i + 0 }
END {
  nbytes += 0; at = 0; size += 0; present = 0; sensors = 0; older = 0
  read_form()
  print departure == "" ? "the place where it departs is not found here" : departure
}
