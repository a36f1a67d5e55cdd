# What a logic analyser wrote of the two wires, read for ./plungerhen capture --sigrok and --saleae (analyser).
# words.awk is read before this.
#
#   form  sigrok  the lines of sigrok-cli's decoder i2c, with sample numbers; `rate` is how many samples a second has
#         saleae  the data table of Logic 2's analyser I2C, as CSV
#
# Writes rows, fields parted by tabs, times in nanoseconds:
#
#   W  when it took place, when it began, line number, w, kind, 0, value, answer: an event on the wires; a byte takes
#      place when its ninth bit does
#   O  rows, their number       left out: what stands before the first start
#   O  byte, line number        left out: the last byte, whose ninth bit is not there
#   O  cut, line number         left out: the last row of a table, which has no line end and may be cut
#   O  clock, kHz               how fast SCL was, by the rate that is told
#   Z                           the end
#
# or, last, B: line number, what is wrong there. Kinds, values and answers are those of a capture. `unended` is the
# number of the last line, if it has no end.

# ---- the events, as both forms give them. The last is held back: a byte has taken place before the next event begins.
function wire(when, from, line, kind, value, answer) {
  release(from)
  held = 1; held_when = when
  held_from = sprintf("%.0f", from) "\t" line "\tw\t" kind "\t0\t" value "\t" answer
}
function release(before) {
  if (!held) return
  if (before < held_when) held_when = before
  printf "W\t%.0f\t%s\n", held_when, held_from
  held = 0
}
function starts(when) { begun = inside = 1; control = -1; wire(when, when, NR, 1, 0, "-") }
function stops(when) {
  if (!begun) { early++; return }
  inside = 0
  wire(when, when, NR, 4, 0, "-")
}
# A byte: the control byte if `first`, else data, read or written as its control byte says. `line` is where it stands,
# `acked` its ninth bit.
function takes_byte(from, when, line, first, value, acked) {
  if (first) control = value
  if (control % 2 == 1 && !first) wire(when, from, line, 3, acked, "D" toupper(sprintf("%02x", value)))
  else wire(when, from, line, 2, value, acked ? "A" : "N")
}
# Whether a byte may stand here; one that comes before the first start is left out.
function place_for(first) {
  if (!begun) { early++; return 0 }
  if (!inside) bad("a byte outside an exchange: there is no start between it and the stop before it")
  if (first && control >= 0) bad("a second address in one exchange, and no start before it")
  if (!first && control < 0) bad("data directly behind a start: an address comes first")
  return 1
}

# Times are whole nanoseconds, and do not go backwards; 15 digits and more are counted exactly.
function in_order(when, told) {
  if (when > 9e15 || when < -9e15) bad("the time " told " is more than 100 days away" (form == "sigrok" ? ": is the rate right?" : ""))
  if (timed && when < last_time) bad("the " (form == "sigrok" ? "sample numbers go" : "times go") " backwards: " told " stands behind " last_told)
  timed = 1; last_time = when; last_told = told
  return when
}
function rounded(x) { return (x < 0 ? -int(0.5 - x) : int(x + 0.5)) + 0 }
function quoted(text) {
  if (length(text) > 60) text = substr(text, 1, 60) ".."
  gsub(/[^ -~]/, "?", text)
  return "\"" text "\""
}

# What a file may be that is not what it was said to be.
function looks() {
  if (/^\$(date|version|comment|timescale|scope|var)( |$)/)
    return "a VCD file: " (form == "sigrok" ? "run sigrok-cli on it" : "its wires are not decoded")
  if (form == "sigrok" && /^"?name"?,"?type"?,/) return "Logic 2's data table: it is checked with --saleae"
  if (form == "saleae" && /^[0-9]+-[0-9]+ [^:]*: /) return "the lines of sigrok-cli: they are checked with --sigrok"
  if (/^"?Time \[s\]"?,"?Packet ID"?/) return "the older export of the analyser alone: export the data table instead"
  if (/^"?Time \[s\]"?,/) return "raw samples as CSV: add the analyser I2C in Logic 2, and export its data table"
  if (/^; ?CSV|^; ?Channels/) return "raw samples as sigrok writes them: let its decoder i2c read them"
  if (/^(slot|setup|memory) .*[0-9]/) return "a capture in words: it is checked without --" form
  if (/^PK/)
    return "a packed file, as sigrok and Logic 2 save a session: " (form == "sigrok" ? "run sigrok-cli on it" : "export the data table from it")
  return ""
}
function unlike(sentence,   what) {
  what = NR == 1 ? looks() : ""
  bad(sentence (what == "" ? "" : " (this looks like " what ")"))
}

# ---- sigrok-cli: lines such as `125-195 i2c-1: Address write: 50`, also with the annotation's class in between
function sigrok_line(   at, span, text, from) {
  at = index($0, " ")
  span = substr($0, 1, at - 1)
  if (span !~ /^[0-9]+-[0-9]+$/) not_numbered()
  text = said(substr($0, at + 1))
  if (!(text in fixed) && text !~ /^(Address|Data) (read|write): [0-9A-Fa-f][0-9A-Fa-f]$/) strange(text)
  if (fixed[text] == "passed") return
  from = sample(span)
  if (text ~ /: /) { sigrok_byte(from, text); return }
  if (fixed[text] == "ninth") { sigrok_ninth(from, text == "ACK"); return }
  if (waiting) unfinished()
  if (fixed[text] == "start") starts(from)
  else stops(from)
}
function fix_texts() {
  fixed["Start"] = fixed["Start repeat"] = "start"
  fixed["Stop"] = "stop"
  fixed["ACK"] = fixed["NACK"] = "ninth"
  fixed["0"] = fixed["1"] = fixed["Write"] = fixed["Read"] = "passed"
}
# What the decoder said, without its name and, where that is told, the class or row of the annotation.
function said(text,   at, name, short) {
  at = index(text, ": ")
  name = substr(text, 1, at - 1)
  if (name != decoder) same_decoder(name)
  text = substr(text, at + 2)
  if (text in fixed) return text
  short = text; sub(/^[A-Za-z\/-]+: /, "", short)
  if ((short in fixed) || short ~ /^(Address|Data) (read|write): /) return short
  return text
}
function same_decoder(name) {
  if (tolower(name) !~ /^i(2|\302\262)c(-[0-9]+)?$/) unlike("this is no line of sigrok's decoder i2c: " quoted($0))
  if (decoder != "") bad("the lines of two decoders, " quoted(decoder) " and " quoted(name) ": keep those of one bus")
  decoder = name
}
function not_numbered() {
  if (/^[iI](2|\302\262)[cC](-[0-9]+)?: /) bad("the line has no sample numbers: run sigrok-cli with --protocol-decoder-samplenum")
  unlike("this is no line of sigrok's decoder i2c (such as 125-195 i2c-1: Address write: 50): " quoted($0))
}
function strange(text) {
  if (text ~ /^(Address|Data) (read|write): /) bad("a byte has two hex digits here, and not " quoted(substr(text, index(text, ":") + 2)))
  bad(quoted(text) " is nothing that the decoder i2c says of a start, a stop, a byte or its ninth bit")
}
function sample(span,   at, from, to) {
  at = index(span, "-")
  from = substr(span, 1, at - 1); to = substr(span, at + 1)
  if (length(from) > 15 || length(to) > 15) bad("the sample number " quoted(length(from) > 15 ? from : to) " is too long: 15 digits are the most")
  if (to + 0 < from + 0) bad("the samples " span " go backwards")
  return in_order(rounded(from * 1e9 / rate), from)
}
function sigrok_byte(from, text,   first, byte) {
  if (waiting) unfinished()
  first = text ~ /^A/
  if (!place_for(first)) return
  number(substr(text, length(text) - 1) "h"); byte = value
  if (first && byte > 127) bad("the address " show(byte) " has more than seven bits: run the decoder without address_format=unshifted")
  if (first) byte = 2 * byte + (text ~ /read/)
  else if ((text ~ /read/) != control % 2)
    bad(text ~ /read/ ? "data read behind an address that writes" : "data written behind an address that reads")
  waiting = NR; waiting_from = from; waiting_value = byte; waiting_first = first
}
function sigrok_ninth(when, acked) {
  if (!begun) return
  if (!waiting) bad((acked ? "an ACK" : "a NACK") " without a byte before it")
  takes_byte(waiting_from, when, waiting, waiting_first, waiting_value, acked)
  bits += 8; bits_took += when - waiting_from
  waiting = 0
}
function unfinished() { bad("the byte in line " waiting " has no ACK or NACK behind it") }

# ---- Logic 2: a table in CSV, its columns by their names
function saleae_line(   n, type) {
  if (length($0) > 5000) unlike("the line is too long for a row of the table")
  n = cells($0)
  if (!columns) { header(n); return }
  if (NR == unended) { cut_row = NR; return }
  if (n != columns) bad("the row has " n (n == 1 ? " cell" : " cells") ", and the header " columns)
  if (unacked) bad("the byte in line " unacked " has neither true nor false as its ack")
  same_name()
  type = cell[column["type"]]
  if (type !~ /^(start|stop|address|data)$/) bad("the row's type is " quoted(type) ", which is no start, address, data or stop")
  saleae_row(type, in_order(seconds(cell[column["start_time"]]), cell[column["start_time"]]))
}
# The cells of a line, without their quotes, in cell[]; gives their number.
function cells(text,   n, i, m, part) {
  n = split(text, piece, ",")
  for (i = 1; i <= n; i++) {
    part = trim(piece[i])
    if (part ~ /^"/) {
      while (part !~ /^"([^"]|"")*"$/ && i < n) part = part "," piece[++i]
      if (part !~ /^"([^"]|"")*"$/) unlike("a quote is not closed, or stands inside a cell")
      part = substr(part, 2, length(part) - 2)
      gsub(/""/, "\"", part)
    } else if (index(part, "\"")) unlike("a quote stands inside a cell")
    cell[++m] = part
  }
  return m
}
function header(n,   i, needed, m) {
  for (i = 1; i <= n; i++) {
    if (cell[i] in column) unlike("the header has the column " quoted(cell[i]) " twice")
    column[cell[i]] = i
  }
  m = split("type start_time ack address read data", needed, " ")
  for (i = 1; i <= m; i++)
    if (!(needed[i] in column)) unlike("the header has no column " needed[i] ", as Logic 2's data table of its analyser I2C has")
  columns = n
}
function same_name(   name) {
  if (!("name" in column)) return
  name = cell[column["name"]]
  if (named && name != first_name)
    bad("the table has rows of two analysers, " quoted(first_name) " and " quoted(name) ": export the table of the one on this bus")
  named = 1; first_name = name
}
function saleae_row(type, from) {
  if (type == "start") no_error()
  if (type == "start") starts(from)
  else if (!begun) early++
  else {
    no_error()
    if (type == "stop") stops(from)
    else saleae_byte(type == "address", from, from + lasting())
  }
}
function no_error() {
  if (("error" in column) && cell[column["error"]] != "")
    bad("Logic 2 could not read the wires here: " quoted(cell[column["error"]]))
}
function lasting(   text, long) {
  text = ("duration" in column) ? cell[column["duration"]] : ""
  if (text == "") return 0
  if (!is_decimal(text)) bad(quoted(text) " is no duration in seconds")
  long = rounded(text * 1e9)
  if (long < 0 || long > 9e15) bad("the duration " text " is less than nothing, or more than 100 days")
  return long
}
function saleae_byte(first, from, when,   byte, ack) {
  place_for(first)
  byte = plain_number(cell[column[first ? "address" : "data"]], first ? "address" : "data")
  if (first && byte > 127) bad("the address " show(byte) " has more than seven bits: let Logic 2 show addresses of seven bits")
  if (first) byte = 2 * byte + truth("read")
  if (cell[column["ack"]] == "") { unacked = NR; return }
  takes_byte(from, when, NR, first, byte, truth("ack"))
}
function truth(name,   text) {
  text = tolower(cell[column[name]])
  if (text != "true" && text != "false") bad("the column " name " has " quoted(cell[column[name]]) ", and must have true or false")
  return text == "true"
}
function plain_number(text, name,   base, digits, i, digit, sum) {
  digits = tolower(text); base = 10
  if (sub(/^0x/, "", digits)) base = 16
  else if (sub(/^0b/, "", digits)) base = 2
  for (i = 1; i <= length(digits); i++) {
    digit = index("0123456789abcdef", substr(digits, i, 1)) - 1
    if (digit < 0 || digit >= base) break
    sum = sum * base + digit
  }
  if (digits == "" || i <= length(digits) || length(digits) > 10 || sum > 255)
    bad("the column " name " has " quoted(text) ", which is no byte: let Logic 2 show it in hexadecimal, as 0x5A")
  return sum + 0
}

# ---- times of the table: seconds, or a date and a time of day, which count from the first row's
function is_decimal(text) { return length(text) < 40 && text ~ /^[-+]?([0-9]+\.?[0-9]*|\.[0-9]+)([eE][-+]?[0-9][0-9]?)?$/ }
function seconds(text,   dated) {
  dated = text ~ /^[0-9][0-9][0-9][0-9]-[0-9][0-9]-[0-9][0-9][T ][0-9][0-9]:[0-9][0-9]:[0-9][0-9](\.[0-9]+)?(Z|[-+][0-9][0-9]:?[0-9][0-9])?$/
  if (!dated && !is_decimal(text)) bad("the column start_time has " quoted(text) ", which is neither seconds nor a date with a time")
  if (timed && dated != dates) bad("the column start_time has both seconds and dates")
  dates = dated
  return dated ? since_first(text) : rounded(text * 1e9)
}
function since_first(text,   day, time, zone, rest) {
  day = days(substr(text, 1, 4), substr(text, 6, 2), substr(text, 9, 2))
  time = 3600 * substr(text, 12, 2) + 60 * substr(text, 15, 2) + substr(text, 18, 2)
  rest = substr(text, 20); zone = ""
  if (match(rest, /[-+].*$/)) { zone = substr(rest, RSTART); rest = substr(rest, 1, RSTART - 1); sub(/:/, "", zone) }
  sub(/Z$/, "", rest)
  if (zone != "") time -= (zone ~ /^-/ ? -1 : 1) * (3600 * substr(zone, 2, 2) + 60 * substr(zone, 4, 2))
  if (!timed) { first_day = day; first_time = time; first_rest = rounded(("0" rest) * 1e9) }
  return ((day - first_day) * 86400 + time - first_time) * 1e9 + rounded(("0" rest) * 1e9) - first_rest
}
# Days from the first of March of the year 0: a year that begins in March has its leap day last.
function days(year, month, day) {
  if (month < 3) { year--; month += 12 }
  return 365 * year + int(year / 4) - int(year / 100) + int(year / 400) + int((153 * (month - 3) + 2) / 5) + day
}

function end_of_file() {
  if (!lines || (form == "saleae" && !columns)) { NR = NR ? NR : 1; bad("there is nothing in this file") }
  if (!begun) bad("there is no start in this file: no exchange can be judged")
  release(9e15)
  if (early) print "O\trows\t" early
  if (waiting || unacked) print "O\tbyte\t" waiting + unacked
  if (cut_row) print "O\tcut\t" cut_row
  if (bits_took > 0) printf "O\tclock\t%.0f\n", bits * 1e6 / bits_took
  print "Z"
}

BEGIN { fix_texts() }
NR == 1 { sub(/^\357\273\277/, "") }
{ sub(/\r$/, "") }
/^[ \t]*$/ { next }
{ lines++ }
form == "sigrok" { sigrok_line() }
form == "saleae" { saleae_line() }
END { if (!wrong) end_of_file() }
