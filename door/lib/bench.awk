# The bench as people speak of it, said once for every command of ./plungerhen: how many slots there are, what their
# kinds are called, and control bytes. It is for words alone, what a number is called and which number a word stands
# for: what a byte does and who acknowledges it, what is refused and what not, the programs say. Also what all awk
# programs here share. Read before them; it does nothing by itself.

BEGIN {
  SLOTS = 8
  split("memory,sensor,old", KIND, ",")                # by their number, as cases have them; 0 is absent
  split("memory,memory with sensor,older memory", KIND_TOLD, ",")
  name_bytes("protect", "62 68 6A 60", "protect|block %d")
  name_bytes("is protected", "63 69 6B 61", "is block %d|protected?")
  name_bytes("clear", "66", "clear|protection")
  name_bytes("half", "6C 6E", "select|half %d")
  name_bytes("which half", "6D", "which|half?")
  OLDER["62"] = TOLD["62"]; OLDER["63"] = OLDER["67"] = TOLD["63"]; OLDER["66"] = TOLD["66"]    # with high voltage on
  REGISTERS = split("1 2 3 4 5 8 9", REGISTER, " ")    # those that a form keeps, and their names
  split("configuration high low critical temperature resolution timeout", REGISTER_NAME, " ")
}
function name_bytes(word, bytes, told,   w, n, i) {
  n = split(bytes, w, " ")
  for (i = 0; i < n; i++) { COMMAND[word, i] = w[i + 1]; TOLD[w[i + 1]] = sprintf(told, i) }
}

# ---- control bytes. COMMAND[word, n] has those of commands, in hex digits.
function memory_byte(slot, reading) { return 160 + 2 * slot + reading }
function sensor_byte(slot, reading) { return 48 + 2 * slot + reading }
function is_memory(byte) { return int(byte / 16) == 10 }
function is_sensor(byte) { return int(byte / 16) == 3 }
function is_command(byte) { return int(byte / 16) == 6 }
function named_slot(byte) { return is_memory(byte) || is_sensor(byte) ? int(byte % 16 / 2) : -1 }
# What it is called, in two short lines; nothing where it has no name. A command of an older memory goes by its high
# voltage and its select number, so that one byte can be two commands: kinds[] and on[] tell of each slot what it is, and
# whether high voltage is on there.
function called(byte, kinds, on,   s, any, name, all) {
  if (named_slot(byte) >= 0) return (byte % 2 ? "read" : "write") " slot " named_slot(byte) "|" (is_memory(byte) ? "memory" : "sensor")
  for (s = 0; s < SLOTS; s++) any += is_older(kinds[s])
  if (!any) return TOLD[sprintf("%02X", byte)]
  for (s = 0; s < SLOTS; s++) {
    name = !kinds[s] ? "" : is_older(kinds[s]) ? older_called(byte, s, on[s]) : TOLD[sprintf("%02X", byte)]
    if (name == "" || name == all) continue
    if (all != "") return "two commands|in one byte"
    all = name
  }
  return all
}
function older_called(byte, slot, on) {
  if (on) return OLDER[sprintf("%02X", byte)]
  if (!is_command(byte) || int(byte % 16 / 2) != slot) return ""
  return byte % 2 ? "is slot " slot "|protected?" : "protect slot " slot "|for ever"
}

# ---- words and escapes
function fail(sentence) { print sentence; exit 1 }
function hex(v, digits) { return sprintf("%0" digits "Xh", v) }
function plural(n, word) { return n " " word (n == 1 ? "" : "s") }
function joined(list, n,   i, text) {
  for (i = 1; i <= n; i++) text = text (i == 1 ? "" : i < n ? ", " : " and ") list[i]
  return text
}
function blocks_named(list, n) { return (n == 1 ? "block " : "blocks ") joined(list, n) }
function protected_words(list, n) { return n ? blocks_named(list, n) " protected" : "no block protected" }
function on_words(on) { return on ? "on" : "off" }
# Octal escapes of printf: of a byte, of a record
function octal(byte) {
  if (!(byte in OCTAL)) OCTAL[byte] = sprintf("\\%03o", byte)
  return OCTAL[byte]
}
function record_octals(kind, slot, val) {
  if (val < 0) val += 65536
  return octal(kind) octal(slot) octal(int(val / 256)) octal(val % 256)
}

# ---- what the program `watch` writes: a line for each record, the script's, and behind it a line for each slot that
# the record changed, as in `0 kind=2 length=5 left=0 half=0 ..`
function is_slot(line) { return line ~ /^[0-9]/ }
function number_of(line, name,   at) {
  at = index(line, " " name "=")
  return at ? substr(line, at + length(name) + 2) + 0 : 0
}
# the EVENT pin of a sensor. A run uses it where it is asserted, or has another level than at first.
function tells_pin(line) { return line ~ / asserted=[01]( |$)/ && line ~ / level=[01]( |$)/ }
function pin_words(line) {
  return (number_of(line, "asserted") ? "asserted" : "released") " " (number_of(line, "level") ? "high" : "low")
}
function uses_pin(is_asserted, is_high, first) { return is_asserted == 1 || is_high != first }
# what is protected in a slot, and what an older memory alone has: whether that is so for ever, and its write-protect pin
function protection_told(line,   k, n, list) {
  for (k = 0; k < 4; k++) if (number_of(line, "protection" k)) list[++n] = k
  return protected_words(list, n) (number_of(line, "permanent") ? " for ever" : "")
}
function half_told(line) { return is_older(number_of(line, "kind")) ? "" : "half " number_of(line, "half") ", " }
function voltage_told(line) {
  return "high voltage " on_words(number_of(line, "voltage")) \
    (is_older(number_of(line, "kind")) ? ", write-protect pin " on_words(number_of(line, "write-protect")) : "")
}

# ---- kinds
function has_sensor(kind) { return kind == 2 }
function is_older(kind) { return kind == 3 }
function bytes_of(kind) { return is_older(kind) ? 256 : 512 }
function whose_memory(kind) { return is_older(kind) ? "an older module's" : "a slot's" }
function kind_words(kind) { return kind ? KIND_TOLD[kind] : "absent" }
# their words, as in: memory, sensor or old
function kinds_listed(between, last,   k, text) {
  for (k = 1; k in KIND; k++) text = text (k == 1 ? "" : (k + 1) in KIND ? between : last) KIND[k]
  return text
}
function kind_named(word,   k) {
  for (k = 1; k in KIND; k++) if (KIND[k] == word) return k
  return word == "absent" ? 0 : -1
}
# Why the numbers of a slot are no setup, where a program has refused them; nothing where they are one
function bad_pair(slot, kind, ticks,   k, numbers, words) {
  for (k = 1; k in KIND; k++) { numbers = numbers (k + 1 in KIND ? ", " : " or ") k; words = words ", " KIND_TOLD[k] }
  if (kind >= k) return "slot " slot " is of kind " kind ", not 0" numbers " (absent" words ")"
  if (!kind || (ticks >= 1 && ticks <= 5)) return ""
  return "slot " slot " has a write cycle of " plural(ticks, "tick") ", not of 1 to 5"
}
# The slots that ./plungerhen capture --sigrok and --saleae are told of, from `slots`, as in `2:1:5 3:2:5`: kind_of[],
# and ticks_of[], the write cycle in ticks
function told_slots(   w, i, part) {
  for (i = split(slots, w, " "); i; i--) {
    split(w[i], part, ":")
    kind_of[part[1] + 0] = part[2] + 0; ticks_of[part[1] + 0] = part[3] + 0
  }
}
