# Captures (examples/captures/README.md) read and told for ./plungerhen capture. The words are those of words.awk, which
# is read before this.
#
#   mode  read    from a readable capture to rows, fields parted by tabs:
#                   I  number of records, the setup's bytes, the records' bytes, both as octal escapes of printf
#                   M  line number, slot, the bytes that its memory begins with, as octal escapes
#                   F  line number, slot, the name of the file that has them
#                   E  record's number from 0, line number, the line's text, kind, the event in words, the answer that
#                      was captured
#                 or, alone, B: line number, what is wrong there
#         bytes   from bytes of records in hex to such rows E, the first being record `first`; line number and text are
#                 empty
#         tell    from rows E, to the report on record number `at`, where the model says `model` and the capture `seen`;
#                 NAME in the environment is the name of the file. What is no verdict on these rows ends with status 1
#                 and a line that says why.
#
# An answer is written as the programs write it, an unknown code as ? and its number.

# ---- read
function row(text) { rows[++nrows] = text }

function setup_line() {
  if (nevents) bad("setup comes before the first event")
  if (arrow) bad("a capture's setup has no answer")
  setupwords(left)
  if (cut) bad("the setup is cut short: a capture has all " 2 * SLOTS " numbers")
}

# `memory SLOT FILE.bin`, where the name may have blanks in it, or `memory SLOT: BYTE...`
function memory_line(   slot, rest, w, n, i, bytes) {
  if (nevents) bad("the memory is told before the first event")
  if (arrow) bad("memory has no answer")
  rest = left; sub(/^memory */, "", rest)
  slot = rest; sub(/[ :].*/, "", slot)
  rest = substr(rest, length(slot) + 1)
  if (rest !~ /^[ :] *[^ :]/ || rest ~ /^( +[0-9A-Fa-f]+h(\*[0-9]+)?)+$/)
    bad("the form is: memory SLOT FILE.bin, or memory SLOT: BYTE..., as in: memory 0: 23h 11h")
  slot = slot_number(slot)
  if (slot in memory_at) bad("the memory of slot " slot " is told twice")
  memory_at[slot] = NR
  if (rest ~ /^ /) { row("F\t" NR "\t" slot "\t" trim(rest)); return }
  n = split(substr(rest, 2), w, " ")
  n = spread(w, 1, n)
  if (n > 512) bad("a slot has 512 bytes, and here are " n)
  told_bytes[slot] = n
  for (i = 1; i <= n; i++) bytes = bytes octal(hex_word(w[i], 255, "byte"))
  row("M\t" NR "\t" slot "\t" bytes)
}

function event_line(   i) {
  if (!arrow) bad("no answer: a capture has one for every event, behind ->")
  if (right == "") bad("nothing stands after the arrow")
  answer_list(right, "^R[2-4]$", "R2 to R4")
  input = ""
  event_list(left)
  if (cut) bad("the record is cut short: a capture's records are whole")
  match_list()
  for (i = 1; i <= nline; i++) {
    row("E\t" nevents++ "\t" NR "\t" left "\t" from_hex(substr(code[i], 1, 2)) "\t" told[i] "\t" due[i])
    records[NR] = records[NR] substr(input, 16 * i - 15, 16) answer_octals(due[i])
  }
}

function end_read(   i, slot) {
  if (!lines) { NR = NR ? NR : 1; bad("neither setup nor event in this file") }
  for (slot = 0; slot < SLOTS; slot++) {
    if ((slot in memory_at) && !kind[slot]) { NR = memory_at[slot]; bad("slot " slot " is absent: it has no memory") }
    if (told_bytes[slot] > bytes_of(kind[slot])) {
      NR = memory_at[slot]
      bad("slot " slot " is an older memory, of " bytes_of(kind[slot]) " bytes, and here are " told_bytes[slot])
    }
  }
  printf "I\t%d\t%s\t", nevents, setupbytes()
  for (i = 1; i <= NR; i++) if (i in records) printf "%s", records[i]
  print ""
  for (i = 1; i <= nrows; i++) print rows[i]
}

# ---- bytes
function answer_of(code_byte, data) {
  if (code_byte == 3) return sprintf("D%02X", data)
  if (code_byte == 4) return "R" data
  return code_byte > 4 ? "?" code_byte : substr("-AN", code_byte + 1, 1)
}
function end_bytes(   i) {
  for (i = 0; i + 6 <= nbytes; i += 6)
    print "E\t" (first + i / 6) "\t\t\t" b[i] "\t" record_words(b[i], b[i + 1], 256 * b[i + 2] + b[i + 3]) "\t" answer_of(b[i + 4], b[i + 5])
}

# ---- tell
# The first event to show: eight before the record, or the start of the exchange that this one stands in, but not more
# than forty before.
function shown_from(   i, from, inside) {
  from = i = at < 8 ? 0 : at - 8
  while (i > 0 && i > at - 40 && kinds[i - 1] !~ /^[458]$/) {
    if (kinds[--i] == 1) { from = i; inside = 0 }
    else if (kinds[i] ~ /^[23]$/) inside = 1
  }
  return inside ? i : from
}
function in_words(a) {
  if (a == "-") return "nothing"
  if (a ~ /^\?/) return "code " substr(a, 2) ", which is no answer of the protocol"
  return answer_words(a)
}
function end_tell(   i, from, wide, place) {
  if (!(at in said)) fail("there is no record " at)
  if ((said[at] ~ /^\?/ ? "?" : said[at]) != seen) fail("record " at " has the answer " said[at])
  from = shown_from()
  wide = length(lines_at[at] == "" ? at : lines_at[at])
  if (wide < 4) wide = 4
  print ENVIRON["NAME"] ": differs at record " at (lines_at[at] == "" ? "" : ", line " lines_at[at] ": " texts[at])
  if (from) printf "%" wide "s  (%s not shown)\n", "", from (from == 1 ? " earlier event is" : " earlier events are")
  for (i = from; i <= at; i++) {
    place = lines_at[i] == "" ? i : i > from && lines_at[i] == lines_at[i - 1] ? "" : lines_at[i]
    printf "%" wide "s  %-24s  %s\n", place, events[i],
      i < at ? answer_words(said[i]) : "<== the chip said " in_words(said[i]) ", the model says " in_words(model)
  }
  if (model ~ /^R/) printf "%" wide "s  (a record that the model refuses never agrees)\n", ""
}

mode == "read" {
  if (!parted()) next
  lines++
  if (left ~ /^(slot|setup)( |$)/) setup_line()
  else if (left ~ /^memory( |$)/) memory_line()
  else if (left ~ /^pin( |$)/) bad("a capture has events and their answers alone; a pin is looked at in a case (./plungerhen case)")
  else event_line()
}
mode == "bytes" { n = split($0, word, " "); for (i = 1; i <= n; i++) b[nbytes++] = from_hex(word[i]) }
mode == "tell" && $1 == "E" { lines_at[$2] = $3; texts[$2] = $4; kinds[$2] = $5; events[$2] = $6; said[$2] = $7 }
END {
  if (wrong) exit
  if (mode == "read") end_read()
  if (mode == "bytes") end_bytes()
  if (mode == "tell") end_tell()
}
