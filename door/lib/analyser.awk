# The verdict on a logic analyser's export put in words, for ./plungerhen capture --sigrok and --saleae (analyser).
# Reads the rows of ticks.awk; bench.awk and words.awk are read before this.
#
#   mode  bytes  the records as a capture has them, in lines of octal escapes of printf
#         script the same without answers, as a script has them
#         agrees the report on an export that agrees; NAME in the environment is the name of the file. Where the write
#                cycles are not those of the model, it ends with status 1, and says nothing.
#         tell   the report on one that differs at record number `at`, where the model says `model` and the export
#                `seen`; `given` names the slots whose memory was told. What is no verdict on these rows ends with
#                status 1 and a line that says why.
#         unfit  the sentence on a row F
#         doubts the words of rows U up to record number `at`, or of all where it is empty, the latest first: of the
#                slots that this record concerns
#
# `lines` is the file with what the program `watch` wrote of the records, for agrees and tell.

function ms(time) { return sprintf("%.3f", time / 1e6) }
function since(time, stop) { return sprintf("%.1f", (time - stop) / 1e6) }

# ---- bytes
function record_bytes(kind, slot, val, answer) {
  printf "%s", record_octals(kind, slot, val) (mode == "bytes" ? answer_octals(answer) : "")
  if (++records % 64 == 0) printf "\n"
}

# ---- what `watch` wrote: stands[] is each slot's last line
# Of the next record, number `record`: which slots have now begun a write cycle, and which have had a half command.
function read_on(record,   got, s, was) {
  while ((got = getline ahead <lines) > 0 && is_slot(ahead)) {
    s = ahead + 0; was = stands[s]
    if (number_of(ahead, "left") && !number_of(was, "left")) { begun[s, record] = 1; begins++ }
    if (number_of(ahead, "phase") == 6 && number_of(was, "phase") != 6) half_by[s] = record " " number_of(ahead, "half")
    stands[s] = ahead
  }
}
# Whether the cycles that ticks were placed for are those of the model
function same_cycles(   c) {
  for (c = 1; c <= cycles; c++) if (!((slot[c], stop[c]) in begun)) return 0
  return begins + 0 == cycles + 0
}

# ---- the slots that an event concerns go by the last control byte: the one that it names, or every told one where it
# is a command
function follow(kind, val) {
  if (kind == 1) control = -1
  else if (kind == 2 && control == -1) control = val
  else if (kind == 4 || kind == 5 || kind == 8) control = -2
}
function concerns(s) { return (s in kind_of) && (is_command(control) || named_slot(control) == s) }

# ---- the write cycles: how long they took, up to a record
function cycle_row() {
  slot[++cycles] = $2 + 0; stop[cycles] = $3 + 0; stop_at[cycles] = $4; how[cycles] = $5
  end[cycles] = $6; end_at[cycles] = $7; busy[cycles] = $8; by[cycles] = $9
}
# How it ended, up to a record, as its row says; `first` if it was seen when it was first asked, `open` if it ended
# later.
function how_by(c, upto) {
  if (how[c] == "open" || end[c] > upto) return "open"
  return how[c] == "seen" && busy[c] == "-" ? "first" : how[c]
}
function measure(s, upto,   c, w, took) {
  for (w in count) delete count[w]
  for (c = 1; c <= cycles; c++) {
    if (slot[c] != s || stop[c] >= upto) continue
    w = how_by(c, upto); took = end_at[c] - stop_at[c]
    count[w]++; count["all"]++; only[w] = c
    if (count[w] == 1 || took < shortest[w]) shortest[w] = took
    if (count[w] == 1 || took > longest[w]) longest[w] = took
  }
}
function seen_words(w,   low, high, text) {
  if (!count[w]) return ""
  low = since(shortest[w], 0); high = since(longest[w], 0)
  text = "; " (w == "first" && count["seen"] ? "" : "ready ") "after " low (low == high ? "" : " to " high) " ms"
  if (w == "first") text = text ", when it was first asked"
  else if (count[w] == 1) text = text ", still busy at " since(busy[only[w]], stop_at[only[w]]) " ms"
  return text so_many(w)
}
# A slot that was last seen to run behind the clock's end ran longer than told.
function clock_words(s,   c, text) {
  if (!count["clock"]) return ""
  c = only["clock"]
  if (busy[c] == "-" || count["clock"] > 1) text = "not asked within "
  else text = "still busy at " since(busy[c], stop_at[c]) " ms, not asked again within "
  if (busy[c] != "-" && busy[c] - end_at[c] >= 0) text = "still busy at " since(busy[c], stop_at[c]) " ms, and told as "
  return "; " text ticks_of[s] " ms" so_many("clock")
}
function so_many(w) { return count["all"] == 1 ? "" : ", " plural(count[w], "cycle") }
function measured(upto,   s, text) {
  for (s = 0; s < SLOTS; s++) {
    measure(s, upto)
    text = seen_words("seen") seen_words("first") clock_words(s)
    if (count["with"]) text = text "; not asked before another slot was ready" so_many("with")
    if (count["heard"]) text = text "; over before a command that it heard" so_many("heard")
    if (count["power"]) text = text "; cut by power" so_many("power")
    if (count["open"]) text = text "; not seen to end" so_many("open")
    if (text != "") print "slot " s ": " substr(text, 3)
  }
}
function rule(   i) {
  if (ticks) print "Ticks are not on the wires. " ticks (ticks == 1 ? " was" : " were") " placed, so that " \
    "a write cycle ends before the exchange in which its slot acknowledges again, or"
  if (ticks) print "once it has had its milliseconds. A cycle that is shorter than told is not judged, only measured; all else is judged."
  else print "Ticks are not on the wires. None was placed, since no write cycle was seen to end."
  if (clock) print "The bus ran at about " clock " kHz, by the rate that was told."
  for (i = 1; i <= omissions; i++) print "Left out: " omitted[i] "."
}
function omission() {
  if ($2 == "clock") clock = $3
  else if ($2 == "cut") omitted[++omissions] = "the last row, in line " $3 ", which has no line end and may be cut"
  else if ($2 == "rows") omitted[++omissions] = plural($3, "row") " before the first start, from an exchange that began before the export"
  else omitted[++omissions] = "the last byte, in line " $3 ", whose ninth bit is not there"
}

# ---- agrees
function end_agrees() {
  printf "%s: OK, %s, %s on the wires", ENVIRON["NAME"], plural(exchanges, "exchange"), plural(wires, "event")
  if (besides) printf ", %s beside them", besides
  printf ", %s to %s ms\n", ms(first_time), ms(last_time)
  measured(1e15)
  rule()
}

# ---- tell: the event, and the exchange up to it
function get(i) { split(raw[i], f, "\t") }
function words_of(i) { get(i); return record_words(f[6], f[7], f[8]) }
function heading(   text) {
  get(at)
  text = ENVIRON["NAME"] ": differs at " ms(f[3]) " ms"
  if (f[5] == "w") text = text ", line " f[4]
  if (f[5] == "b") text = text ", line " f[4] " of what is beside the wires"
  if (f[5] == "t") text = text ", a tick that was placed"
  if (f[10]) { text = text ", in exchange " f[10]; get(first_of[f[10]]); text = text " (from " ms(f[3]) " ms)" }
  print text ": " words_of(at)
}
function in_words(a) { return a == "-" ? "nothing" : answer_words(a) }
function difference() {
  get(at)
  return "<== the chip " (f[6] == 3 ? "gave " : "said ") in_words(f[9]) ", the model says " in_words(model)
}
function events_shown(   from, i, wide, many) {
  get(at)
  from = f[10] ? first_of[f[10]] : at - 8
  if (from < at - 40) from = at - 40
  if (from < 0) from = 0
  wide = length(ms(f[3])) + 2
  if (from) printf "%" wide "s  (%s not shown)\n", "", (from == 1 ? "1 earlier event is" : from " earlier events are")
  for (i = from; i <= at; i += many) {
    get(i)
    for (many = 1; f[5] == "t" && i + many < at && raw[i + many] ~ /\tt\t/; many++) ;
    printf "%" wide "s  %-24s  %s\n", ms(f[3]), (many > 1 ? "tick " many : words_of(i)),
      (i == at ? difference() : f[5] == "t" ? "(placed)" : answer_words(f[9]))
  }
}

# ---- tell: the model's state, by the slot's line
function now(name) { return number_of(line, name) }
function phases() {
  split("is in no exchange,waits for a control byte,is deaf until the next start,waits for the counter," \
    "takes bytes to write,gives bytes of its memory,has had a half command,waits for the first byte behind a command," \
    "waits for the second byte behind a command,waits for the stop of a command,waits for the pointer," \
    "waits for the high byte of a register; or a start,waits for the low byte of a register," \
    "gives the high byte of a register,gives the low byte of a register", doing, ",")
  sub(/;/, ",", doing[12])
}
function memory_words(   address) {
  address = 256 * now("half") + now("counter")
  return half_told(line) "counter " show(now("counter")) " (address " sprintf("%03X", address) "h, block " int(address / 128) "), " \
    protection_told(line) ", " voltage_told(line)
}
function sensor_words(   names, name, text) {
  split("configuration,high,low,critical,temperature,-,-,resolution,timeout", names, ",")
  text = "pointer " show(now("pointer")); name = names[now("pointer")]
  if (name ~ /[a-z]/) text = text " (" name ", " sprintf("%04X", now(name)) "h)"
  if (doing[now("phase") + 1] ~ /^gives/) text = text ", the word being read is " sprintf("%04X", now("word")) "h"
  return text
}
function state_line(s,   text) {
  line = stands[s]
  if (line == "") { print "  the model's slot " s " is not shown: the program watch could not be built or run, or says nothing of it"; return }
  text = "  just before, the model's slot " s " " doing[now("phase") + 1] ": "
  text = text (is_sensor(control) ? sensor_words() : memory_words()) ", "
  print text (now("left") ? "a write cycle with " now("left") " of " plural(ticks_of[s], "tick") " left" : "no write cycle")
}

# ---- tell: what was written to a slot before this exchange. The last stretch of events, from a start on, that wrote to
# it names the slot, or its stop began a write cycle there: wrote[] has its first record and its last byte.
function written(record, kind, val, answer,   s) {
  if (kind == 1) from = record
  if (kind == 2 && control == -1) { acked = answer == "A"; behind = 0 }
  else if (kind == 2) behind++
  follow(kind, val)
  if (kind == 2) last = record
  for (s in kind_of)
    if ((kind == 2 && acked && behind >= 2 && control % 2 == 0 && named_slot(control) == s) || ((s, record) in begun))
      wrote[s] = from " " last
}
# What was so before an exchange, or before an event outside of any
function keep_before(   s) { for (s in kind_of) { wrote_before[s] = wrote[s]; half_before[s] = half_by[s] } }
function bytes_written(from, to,   i, text, n) {
  for (i = from; i <= to; i++) {
    get(i)
    if (f[6] == 2 && ++n <= 20) text = text " " show(f[8]) (f[9] == "N" ? " (NACK)" : "")
  }
  return text (n > 20 ? " .., " n " bytes" : "")
}
function write_line(s, memory,   text, w) {
  if (!split(wrote_before[s], w, " ")) {
    text = "; its memory begins with " \
      ((" " given " ") ~ (" " s " ") ? "the bytes that --memory told" : "FFh in every byte, since --memory told no other")
    print "  nothing was written to slot " s " before this exchange" (memory ? text : "")
    return
  }
  text = bytes_written(w[1], w[2])
  get(w[1])
  print "  last written to slot " s " in exchange " f[10] ", from " ms(f[3]) " ms:" text
}
function half_line(s,   w) {
  if (!split(half_before[s], w, " ")) return
  get(w[1])
  print "  half " w[2] " was selected by " show(f[8]) " in exchange " f[10] ", at " ms(f[3]) " ms"
}
function cycle_line(s,   c, latest, text, w) {
  for (c = 1; c <= cycles; c++) if (slot[c] == s && stop[c] < at) latest = c
  if (!latest) return
  c = latest; w = how_by(c, at)
  text = "  slot " s "'s write cycle began with the stop at " ms(stop_at[c]) " ms and "
  if (w == "seen" || w == "first") text = text "counts as ended before " ms(end_at[c]) " ms, since the chip acknowledged " show(by[c]) " there"
  if (w == "clock") text = text "counts as ended before " ms(end_at[c]) " ms, since " ticks_of[s] " ms had passed"
  if (w == "with") text = text "counts as ended before " ms(end_at[c]) " ms, as another slot's had that began no earlier and has no fewer ticks"
  if (w == "power") text = text "was cut by power at " ms(end_at[c]) " ms"
  if (w == "open") text = text "runs still"
  print text
  if (w == "clock") late_line(c, s)
}
# Of a control byte that was not acknowledged: its start came too late for the cycle.
function late_line(c, s,   seen_at) {
  get(at - 1)
  if (f[6] != 1) return
  seen_at = f[3]
  get(at)
  if (f[6] == 2 && f[9] == "N" && model == "A")
    print "  " since(seen_at, stop_at[c]) " ms after the stop the cycle of " plural(ticks_of[s], "tick") " had ended by the clock"
}

# A command in the slot's write cycle, while nobody saw whether the cycle still ran: ticks.awk takes it to run.
function doubt_line(s) {
  if (!(s in doubt_at)) return
  print "  " show(doubt_byte[s]) " at " ms(doubt_at[s]) " ms, " since(doubt_at[s], doubt_stop[s]) " ms after a stop, " \
    "is taken as not heard by slot " s ", whose write cycle counts as running;"
  print "  the wires do not show that: ask the slot before such a command, or tell a shorter write cycle"
}
function doubt_row() { if ($3 <= at) { doubt_at[$2 + 0] = $4; doubt_byte[$2 + 0] = $5; doubt_stop[$2 + 0] = $6 } }

function led_there(   s, any_slot) {
  print "What led there:"
  for (s = 0; s < SLOTS; s++) {
    if (!concerns(s)) continue
    any_slot = 1
    state_line(s)
    write_line(s, is_memory(control))
    if (is_memory(control)) half_line(s)
    cycle_line(s)
    doubt_line(s)
  }
  if (!any_slot) nobody(control)
}
function nobody(byte) {
  if (named_slot(byte) >= 0) print "  slot " named_slot(byte) " is not told (--slot): in the model nobody answers to " show(byte)
  else if (byte >= 0) print "  in the model nobody answers to " show(byte)
  else print "  in the model no exchange is under way here: a stop, a timeout or power has ended it"
}
function end_tell() {
  if (!(at in raw)) fail("there is no record " at)
  get(at)
  if (f[9] != seen) fail("record " at " has the answer " f[9])
  heading()
  events_shown()
  if (model ~ /^R/) print "(a record that the model refuses never agrees)"
  led_there()
  measured(at)
  rule()
}

# ---- doubts
function end_doubts(   i) {
  for (i = keys; i; i--) if (at == "" || (key_record[i] <= at && (concerns(key_slot[i]) || control < 0))) print key[i]
}

# ---- unfit
function end_unfit(   way) {
  if (ticks_of[$2] > 1) way = "a shorter write cycle for slot " $2 ", the faster one"
  if (ticks_of[$5] < 5) way = way (way == "" ? "" : ", or ") "a longer " (way == "" ? "write cycle" : "one") " for slot " $5
  print "from " ms($8) " ms on it is not judged (up to there it agrees): slot " $2 "'s write cycle from " ms($3) " ms was over" \
    ($4 == "-" ? "" : " before " ms($4) " ms") ", while slot " $5 "'s from " ms($6) " ms " \
    ($7 == "-" ? "was not" : "was not at " ms($7) " ms") "; as the two are told, no number of ticks fits both. Tell " way
}

BEGIN {
  FS = "\t"; told_slots(); control = -2
  if (mode == "tell") phases()
  if (mode == "tell" || mode == "agrees") read_on(-1)
}
$1 == "E" && (mode == "bytes" || mode == "script") { record_bytes($6, $7, $8, $9) }
$1 == "E" && mode == "doubts" && (at == "" || $2 <= at) { follow($6, $8) }
$1 == "U" && mode == "doubts" { key[++keys] = $7; key_slot[keys] = $2 + 0; key_record[keys] = $3 }
$1 == "E" && (mode == "agrees" || (mode == "tell" && $2 < at)) { read_on($2 + 0) }
$1 == "E" && mode == "tell" && $2 <= at {
  raw[$2 + 0] = $0
  if (!$10 || !($10 in first_of)) { keep_before(); first_of[$10] = $2 }
  written($2 + 0, $6, $8, $9)
}
$1 == "K" { cycle_row() }
$1 == "U" && mode == "tell" { doubt_row() }
$1 == "O" { omission() }
$1 == "N" { exchanges = $2; wires = $3; besides = $4; ticks = $5; first_time = $6; last_time = $7 }
$1 == "F" && mode == "unfit" { end_unfit() }
END {
  if (mode == "bytes" || mode == "script") printf "\n"
  if (mode == "doubts") end_doubts()
  if (mode == "agrees" && !same_cycles()) exit 1
  if (mode == "agrees") end_agrees()
  if (mode == "tell") end_tell()
}
