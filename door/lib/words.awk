# The words of the case files (examples/cases/README.md): setup lines, events and answers, read into the script's bytes,
# and told from them. Shared by the commands of ./plungerhen that read a case (reading.awk), a capture or an export, and
# by the examples of tests/plan, tests/save and tests/list, which put their own part behind this one; it does nothing by
# itself. bench.awk is read before this.
#
#   parted()          the line in $0: `left` -> `right`, `arrow` where there is one, `note` the comment; 0 if it has
#                     nothing else
#   setupwords(line)  a line `slot ...` or `setup ...`
#   setupbytes()      the setup as octal escapes, when all such lines are read; kind[] and size[] have the pairs that
#                     are told
#   event(part)       one event, or one of the short forms: its records go to the end of `input`, as octal escapes of
#                     printf; for each, told[++nline] has its words, code[nline] its bytes in hex, counted[nline] the
#                     answer that a short form counts on
#   event_list(left)  the events of a line, parted by ;   nline is then their number
#   answer_list(right, others, names)   the answers of a line, in want[1..nwant]; `others`, a pattern, are those besides
#                     - A N and bytes
#   match_list()      the answer to each event of the line, in due[1..nline]
#   pin_line()        a line `pin SLOT`, which is no event: the slot's number; the pin that is expected is `right`
#   record_words(kind, slot, val)   what a record is taken for; cells that are ignored are not told
#   answer_words(a)   an answer, as the programs write it, in words
#
# A line that is malformed ends the reading, by bad(sentence): a row B, the line's number, what is wrong there; then
# `wrong` is set. `cut` is set once the setup or a record was cut short, since nothing can follow that.

function bad(sentence) { if (!wrong) printf "B\t%d\t%s\n", NR, sentence; wrong = 1; exit }
function trim(s) { sub(/^ +/, "", s); sub(/ +$/, "", s); return s }

# A line: events, or what else stands on the left, then an arrow and what is answered, then a comment.
function parted(   text, at) {
  sub(/\r$/, ""); gsub(/\t/, " ")
  text = $0; note = right = ""
  at = index(text, "#")
  if (at) { note = substr(text, at); text = substr(text, 1, at - 1) }
  left = text = trim(text)
  if (text == "") return 0
  arrow = at = index(text, "->")
  if (arrow) { left = trim(substr(text, 1, at - 1)); right = trim(substr(text, at + 2)) }
  if (left == "") bad("answers without an event")
  if (index(right, "->")) bad("two arrows on one line")
  return 1
}

# Numbers: decimal, or hex with an h at the end. `number` leaves its value in the variable value.
function number(s,   i, low) {
  if (s ~ /^-?[0-9]+$/ && length(s) <= 7) { value = s + 0; return 1 }
  low = tolower(s)
  if (low !~ /^[0-9a-f]+h$/ || length(low) > 5) return 0
  value = 0
  for (i = 1; i < length(low); i++) value = value * 16 + index("0123456789abcdef", substr(low, i, 1)) - 1
  return 1
}
function from_hex(digits) { return number(digits "h") ? value : 0 }
function decimal(s, least, most, what) {
  if (s !~ /^-?[0-9]+$/ || !number(s) || value < least || value > most)
    bad("\"" s "\" is no " what " (a decimal number from " least " to " most ")")
  return value
}
function any(s, least, most, what) {
  if (!number(s) || value < least || value > most)
    bad("\"" s "\" is no " what " (a number from " least " to " most "; hex numbers end in h)")
  return value
}
function slot_number(s) { return decimal(s, 0, SLOTS - 1, "slot number") }
function hex_word(s, most, what) {
  if (s !~ /h$/ || !number(s) || value > most)
    bad("\"" s "\" is no " what " (hex with an h at the end, 00h to " toupper(sprintf("%02x", most)) "h)")
  return value
}
function show(b) { return toupper(sprintf("%02x", b)) "h" }

# A list of bytes may say FFh*16 for sixteen times FFh: words at to n of w, spread out. Gives their number.
function spread(w, at, n,   i, j, m, star, times, plain) {
  m = at - 1
  for (i = at; i <= n; i++) {
    star = index(w[i], "*"); times = 1
    if (star) { times = decimal(substr(w[i], star + 1), 1, 1000, "count"); w[i] = substr(w[i], 1, star - 1) }
    for (j = 1; j <= times; j++) plain[++m] = w[i]
  }
  for (i = at; i <= m; i++) w[i] = plain[i]
  return m
}

# One event. `sure` is the answer a short form counts on; empty: the answer comes from the right side.
function add(kind, slot, val, sure) {
  if (cut) bad("a record was cut short before this event; nothing can follow it")
  told[++nline] = record_words(kind, slot, val); counted[nline] = sure
  input = input record_octals(kind, slot, val)
  code[nline] = sprintf("%02X%02X%04X", kind, slot, val < 0 ? val + 65536 : val)
}
function wants(n, least, most, form) {
  if (n < least || n > most) bad("the form is: " form)
}
function reads(count,   i) { for (i = 1; i <= count; i++) add(3, 0, i < count, "") }
# The short forms: a write begins with a control byte and a byte, and a read back follows it.
function writes(control, byte) { add(1, 0, 0, "-"); add(2, 0, control, "A"); add(2, 0, byte, "A") }
function reads_back(control, count) { add(1, 0, 0, "-"); add(2, 0, control, "A"); reads(count); add(4, 0, 0, "-") }

function event(part,   w, n, i, k, s, v, bytes, digits, words) {
  n = split(part, w, " ")
  if (w[1] ~ /^(start|stop|timeout)$/) {
    wants(n, 1, 1, w[1])
    add(w[1] == "start" ? 1 : w[1] == "stop" ? 4 : 5, 0, 0, "")
  }
  else if (w[1] == "power") {
    wants(n, 1, 2, "power, or power NUMBER")
    v = n == 2 ? decimal(w[2], -32768, 32767, "value that a record can hold") : 0
    add(8, 0, v, "")
  }
  else if (w[1] == "tick") {
    wants(n, 1, 2, "tick, or tick COUNT")
    k = n == 2 ? decimal(w[2], 1, 10000, "count") : 1
    for (i = 1; i <= k; i++) add(6, 0, 0, "")
  }
  else if (w[1] == "byte") {
    wants(n, 2, 1000, "byte HEX..., as in: byte A0h 00h")
    n = spread(w, 2, n)
    for (i = 2; i <= n; i++) { v = hex_word(w[i], 255, "byte"); add(2, 0, v, "") }
  }
  else if (w[1] == "read") {
    wants(n, 2, 2, "read ack, read nack, or read COUNT")
    if (w[2] == "ack") add(3, 0, 1, "")
    else if (w[2] == "nack") add(3, 0, 0, "")
    else reads(decimal(w[2], 1, 10000, "count"))
  }
  else if (w[1] == "voltage" || w[1] == "write-protect") {
    if (n != 3 || (w[3] != "on" && w[3] != "off")) bad("the form is: " w[1] " SLOT on, or " w[1] " SLOT off")
    s = decimal(w[2], 0, 255, "slot number that a record can hold")
    add(w[1] == "voltage" ? 7 : 10, s, w[3] == "on", "")
  }
  else if (w[1] == "temperature") {
    wants(n, 3, 3, "temperature SLOT SIXTEENTHS")
    s = decimal(w[2], 0, 255, "slot number that a record can hold")
    v = decimal(w[3], -32768, 32767, "value that a record can hold")
    add(9, s, v, "")
  }
  else if (w[1] == "event") {
    wants(n, 4, 4, "event KIND SLOT VALUE")
    k = any(w[2], 0, 255, "kind that a record can hold")
    s = any(w[3], 0, 255, "slot number that a record can hold")
    v = any(w[4], -32768, 32767, "value that a record can hold")
    add(k, s, v, ""); told[nline] = "event " k " " s " " v
  }
  else if (w[1] == "raw") {
    wants(n, 2, 1000, "raw BYTE...")
    for (i = 2; i <= n; i += 4) {
      if (cut) bad("a record was cut short before this event; nothing can follow it")
      words = "raw"; bytes = ""; digits = ""
      for (k = i; k <= n && k < i + 4; k++) {
        v = any(w[k], 0, 255, "byte"); words = words " " show(v); bytes = bytes octal(v); digits = digits sprintf("%02X", v)
      }
      input = input bytes; told[++nline] = words; counted[nline] = ""; code[nline] = digits
      if (k < i + 4) cut = 1
    }
  }
  else if (w[1] == "write") {
    wants(n, 4, 1000, "write SLOT COUNTER: BYTE..., as in: write 0 1Eh: 01h 02h")
    if (w[3] !~ /:$/) bad("the form is: write SLOT COUNTER: BYTE..., as in: write 0 1Eh: 01h 02h")
    s = slot_number(w[2]); sub(/:$/, "", w[3]); v = hex_word(w[3], 255, "counter")
    n = spread(w, 4, n)
    writes(memory_byte(s, 0), v)
    for (i = 4; i <= n; i++) { v = hex_word(w[i], 255, "byte"); add(2, 0, v, "") }
    add(4, 0, 0, "-")
  }
  else if (w[1] == "look") {
    wants(n, 4, 4, "look SLOT COUNTER COUNT, as in: look 0 1Eh 2")
    s = slot_number(w[2]); v = hex_word(w[3], 255, "counter"); k = decimal(w[4], 1, 10000, "count")
    writes(memory_byte(s, 0), v); reads_back(memory_byte(s, 1), k)
  }
  else if (w[1] == "set") {
    wants(n, 4, 4, "set SLOT REGISTER WORD, as in: set 3 02h 0500h")
    s = slot_number(w[2]); k = hex_word(w[3], 255, "register"); v = hex_word(w[4], 65535, "word")
    writes(sensor_byte(s, 0), k)
    add(2, 0, int(v / 256), ""); add(2, 0, v % 256, "")
    add(4, 0, 0, "-")
  }
  else if (w[1] == "get") {
    wants(n, 3, 3, "get SLOT REGISTER, as in: get 3 05h")
    s = slot_number(w[2]); k = hex_word(w[3], 255, "register")
    writes(sensor_byte(s, 0), k); reads_back(sensor_byte(s, 1), 2)
  }
  else if (w[1] == "slot" || w[1] == "setup") bad("a setup line stands alone, without ;")
  else if (w[1] == "pin") bad("a pin is no event: a line pin SLOT stands alone, without ;, in a case")
  else bad("\"" w[1] "\" is no event")
}

function setupwords(left,   w, n, i) {
  n = split(left, w, " ")
  if (index(left, ";")) bad("a setup line stands alone, without ;")
  if (w[1] == "slot") {
    if (form == "setup") bad("either slot lines or one setup line, not both")
    wants(n, 3, 4, "slot NUMBER absent|" kinds_listed("|", "|") " LENGTH")
    i = slot_number(w[2])
    if (i in kind) bad("slot " i " is named twice")
    kind[i] = kind_named(w[3])
    if (kind[i] < 0) bad("a slot is absent, " kinds_listed(", ", " or ") ", not \"" w[3] "\"")
    if (n == 3 && kind[i]) bad("the write-cycle length is missing: slot NUMBER " w[3] " LENGTH")
    size[i] = n == 4 ? decimal(w[4], 0, 255, "length that a setup can hold") : 0
  } else {
    if (form != "") bad(form == "slot" ? "either slot lines or one setup line, not both" : "a second setup line")
    if (n > 2 * SLOTS + 1) bad("a setup has " 2 * SLOTS " numbers at most, here are " n - 1)
    for (i = 2; i <= n; i++) {
      setup = setup octal(any(w[i], 0, 255, "setup number"))
      if (i % 2) size[(i - 3) / 2] = value
      else kind[(i - 2) / 2] = value
    }
    if (n < 2 * SLOTS + 1) cut = 1
  }
  form = w[1]
}
function setupbytes(   i) {
  if (form != "setup") for (i = 0; i < SLOTS; i++) setup = setup octal(kind[i] + 0) octal(size[i] + 0)
  return setup
}

# ---- the events of a line, and their answers
function event_list(left,   parts, n, i) {
  nline = 0
  if (left ~ /; *;/ || left ~ /^;/ || left ~ /;$/) bad("an empty event: look at the ;")
  n = split(left, parts, ";")
  for (i = 1; i <= n; i++) event(trim(parts[i]))
}
function answer_list(right, others, names,   w, n, i, j, star, word, times) {
  n = split(right, w, " "); nwant = 0
  for (i = 1; i <= n; i++) {
    word = w[i]; times = 1
    star = index(word, "*")
    if (star) { times = decimal(substr(word, star + 1), 1, 10000, "count"); word = substr(word, 1, star - 1) }
    for (j = 1; j <= times; j++) {
      if (word ~ /^[-AN]$/ || word ~ others) want[++nwant] = word
      else if (word ~ /^[0-9A-Fa-f][0-9A-Fa-f]h$/) want[++nwant] = "D" toupper(substr(word, 1, 2))
      else if (word ~ /^[0-9A-Fa-f][0-9A-Fa-f][0-9A-Fa-f][0-9A-Fa-f]h$/) {
        want[++nwant] = "D" toupper(substr(word, 1, 2)); want[++nwant] = "D" toupper(substr(word, 3, 2))
      }
      else bad("\"" word "\" is no answer (answers: - A N, hex as in 5Ah or 4504h, " names ")")
    }
  }
}
function match_list(   i, open, next_want) {
  for (i = 1; i <= nline; i++) if (counted[i] == "") open++
  if (open + 0 != nwant)
    bad(nwant (nwant == 1 ? " answer for " : " answers for ") open + 0 (open == 1 ? " event" : " events") \
        (open < nline ? " (write, look, set and get: only their data is answered here)" : ""))
  for (i = 1; i <= nline; i++) due[i] = counted[i] != "" ? counted[i] : want[++next_want]
}

# ---- a look at a pin
function pin_line(   w, n) {
  n = split(left, w, " ")
  if (index(left, ";")) bad("a line pin SLOT stands alone, without ;")
  wants(n, 2, 2, "pin SLOT, as in: pin 2 -> asserted low")
  gsub(/ +/, " ", right)
  if (arrow && right !~ /^((asserted|released) (low|high)|none)$/)
    bad("\"" right "\" is no pin (asserted low, asserted high, released low, released high; none where there is no sensor)")
  return slot_number(w[2])
}

# ---- records and answers in words
# kind, slot and value of a record in hex digits
function record_of(digits,   val) {
  val = from_hex(substr(digits, 5))
  return from_hex(substr(digits, 1, 2)) "\t" from_hex(substr(digits, 3, 2)) "\t" (val < 32768 ? val : val - 65536)
}
function record_words(kind, slot, val,   plain) {
  if (val >= 32768) val -= 65536
  split("start - - stop timeout tick", plain, " ")
  if (plain[kind] ~ /[a-z]/) return plain[kind]
  if (kind == 2 && val >= 0 && val <= 255) return "byte " show(val)
  if (kind == 3 && (val == 0 || val == 1)) return "read " (val ? "ack" : "nack")
  if (kind == 7 && (val == 0 || val == 1)) return "voltage " slot " " on_words(val)
  if (kind == 8) return val ? "power " val : "power"
  if (kind == 9) return "temperature " slot " " val
  if (kind == 10 && (val == 0 || val == 1)) return "write-protect " slot " " on_words(val)
  return "event " kind " " slot " " val
}
# An answer as a capture has it: its code and its byte
function answer_octals(a) {
  if (a ~ /^D/) return octal(3) octal(from_hex(substr(a, 2)))
  if (a ~ /^R/) return octal(4) octal(substr(a, 2))
  return octal(index("-AN", a) - 1) octal(0)
}
function answer_words(a) {
  if (a == "A") return "ACK"
  if (a == "N") return "NACK"
  if (a == "-") return "-"
  if (a ~ /^D[0-9A-F][0-9A-F]$/) return substr(a, 2) "h"
  if (a == "R1") return "refused: 1 (memory of the wrong length)"
  if (a == "R2") return "refused: 2 (no such kind of event)"
  if (a == "R3") return "refused: 3 (no such slot, or no sensor or write-protect pin)"
  if (a == "R4") return "refused: 4 (value out of range)"
  if (a == "R5") return "refused: 5 (bad setup)"
  if (a == "R6") return "refused: 6 (state out of range)"
  if (a == "short") return "short (the input ends too early)"
  if (a == "nothing") return "no line"
  return "\"" a "\", which is no answer of the protocol"
}
