# What the program `plan` answered, put in words for ./plungerhen plan: the plan as eight hex digits a record on
# standard input.
#
#   mode      show     the plan in the words of the case files, a line for each exchange
#             case     a case file that plays all of it, from setup to a look at every byte
#             records  the plan's records as they are, in one line of hex digits
#             first    a case that brings a fresh bench to what is known of the module
#             refused  which pages that differ lie in which protected block
#   old, new  the two contents in hex digits      slot, ticks, half, blocks (a list)  what is known of the module
# The environment variable NAMES has the names of the two files, for the case's heading. bench.awk is read before this.
#
# Records that cannot be told so, as five ticks, half commands and whole pages of `new`, end with status 1 and a line that
# says why.

function digit(c) { return index("0123456789ABCDEF", c) - 1 }
function byte_of(contents, address) { return substr(contents, 2 * address + 1, 2) }
function page_of(contents, page) { return substr(contents, 32 * page + 1, 32) }
function differs(page) { return page_of(old, page) != page_of(new, page) }
function times(word, n) { return n == 1 ? word : word "*" n }

# The bytes of a page as the case files write them, four or more that are alike as FFh*4.
function bytes(contents, page,   i, n, text) {
  for (i = 0; i < 16; i += n) {
    for (n = 1; i + n < 16 && byte_of(contents, 16 * page + i + n) == byte_of(contents, 16 * page + i); n++) ;
    if (n < 4) n = 1
    text = text (i ? " " : "") times(byte_of(contents, 16 * page + i) "h", n)
  }
  return text
}

# Which bytes of a page change: up to three, each with its address; of more, the first and the last.
function change(address) { return sprintf("%03Xh", address) " " byte_of(old, address) "h to " byte_of(new, address) "h" }
function changes(page,   i, n, at) {
  for (i = 16 * page; i < 16 * page + 16; i++) if (byte_of(old, i) != byte_of(new, i)) at[++n] = i
  if (n > 3) return n " bytes: " change(at[1]) " .. " change(at[n])
  return plural(n, "byte") ": " change(at[1]) (n > 1 ? ", " change(at[2]) : "") (n > 2 ? ", " change(at[3]) : "")
}

# ---- lines to print: events in the words of the case files, their answers, and a remark
function line(events, answers, remark) { said[++lines] = events; answered[lines] = answers; remarked[lines] = remark }
function heading(text) { line("", "", text) }
function write_line(page, contents, remark) {
  line(sprintf("write %d %02Xh: ", slot, page % 16 * 16) bytes(contents, page) "; " tick_words(ticks), times("A", 16) " " times("-", ticks), remark)
}
function half_line(h) { line("start; byte " COMMAND["half", h] "h; stop", "- A -", "half " h " selected") }
function tick_words(n) { return n == 1 ? "tick" : "tick " n }

# Lines between two headings stand under each other.
function measure(i) {
  for (widest = longest = 0; i <= lines && said[i] != ""; i++) {
    if (length(said[i]) > widest) widest = length(said[i])
    if (length(answered[i]) > longest) longest = length(answered[i])
  }
}
function print_lines(with_answers,   i, text) {
  for (i = 1; i <= lines; i++) {
    if (said[i] == "") { print remarked[i]; measure(i + 1); continue }
    text = said[i]
    if (with_answers) text = sprintf("%-" widest "s  -> ", text) answered[i]
    if (remarked[i] != "") text = sprintf("%-" (with_answers ? widest + longest + 5 : widest) "s  # ", text) remarked[i]
    print text
  }
}

# ---- the plan, read record by record
function next_is(record, what) { if (got[++at] != record) fail("record " at " is " (at > ngot ? "missing" : got[at]) ", where " what " should come") }
function hex_record(kind, b) { return sprintf("%02X0000%02X", kind, b) }

function read_page(   page, i) {
  page = 16 * standing + digit(substr(got[++at], 7, 1))
  if (got[at] != hex_record(2, page % 16 * 16)) fail("record " at " is " got[at] ", where the first counter of a page should come")
  for (i = 0; i < 16; i++) next_is("020000" byte_of(new, 16 * page + i), "byte " i " of page " page)
  next_is("04000000", "a stop")
  for (i = 1; i <= ticks; i++) next_is("06000000", "a tick")
  write_line(page, new, "page " page ", half " standing ", " changes(page))
  pages++; passed += ticks
}

function read_plan(   i) {
  if (got[0] !~ /^[1-9][0-9]*$/ || got[0] != ngot) fail("its first line is \"" got[0] "\", and " plural(ngot, "line") " follow")
  for (i = 1; i <= 5; i++) next_is("06000000", "one of five ticks")
  line("tick 5", "-*5", "a write cycle that may still run ends")
  standing = half; passed = 5
  while (at < ngot) {
    next_is("01000000", "a start")
    if (got[++at] == "020000" COMMAND["half", 0] || got[at] == "020000" COMMAND["half", 1]) {
      standing = got[at] == "020000" COMMAND["half", 1]
      next_is("04000000", "a stop")
      half_line(standing)
    }
    else if (got[at] == hex_record(2, memory_byte(slot, 0))) read_page()
    else fail("record " at " is " got[at] ", where a control byte should come")
  }
}

function summary() {
  return "# " (pages ? "" : "nothing is to be written: ") plural(pages + 0, "page") ", " plural(ngot, "record") ", " plural(passed, "millisecond")
}
function known() {
  return "# slot " slot ", write cycle " plural(ticks, "millisecond") ", half " half " selected, " \
    protected_words(block, nblocks)
}

# ---- the case around the plan
function setup_line() { heading("slot " slot " memory " ticks) }
function protect_lines(   i) {
  if (nblocks) line("voltage " slot " on", "-", "")
  for (i = 1; i <= nblocks; i++)
    line("start; byte " COMMAND["protect", block[i]] "h 00h 00h; stop; " tick_words(ticks),
         "- A*3 - " times("-", ticks), "block " block[i])
  if (nblocks) line("voltage " slot " off", "-", "")
}
function before_plan(   page, now) {
  heading("# " ENVIRON["NAMES"] ", written by ./plungerhen plan")
  heading(known()); setup_line()
  heading(""); heading("# The old contents. Setup leaves FFh in every byte, so the pages that hold anything else are written.")
  for (page = 0; page < 32; page++) {
    if (page_of(old, page) ~ /^F+$/) continue
    if (int(page / 16) != now) { now = int(page / 16); half_line(now) }
    write_line(page, old, "page " page)
  }
  if (nblocks) heading("\n# The protection: high voltage on SA0, the command, two bytes, a stop, the write cycle.")
  protect_lines()
  if (now + 0 != half) { heading(""); heading("# The half."); half_line(half) }
  heading(""); heading("# The plan.")
}
function after_plan(   page) {
  heading(summary())
  heading(""); heading("# The new contents, every byte.")
  for (page = 0; page < 32; page++) {
    if (page % 16 == 0) half_line(page / 16)
    line(sprintf("look %d %02Xh 16", slot, page % 16 * 16), bytes(new, page), "page " page)
  }
}

function tell_refused(   i, page, list, n, told) {
  for (i = 1; i <= nblocks; i++) {
    n = 0
    for (page = 8 * block[i]; page < 8 * block[i] + 8; page++) if (differs(page)) list[++n] = page
    if (!n) continue
    told = 1
    print "refused (7): block " block[i] " is protected, and " \
      (n == 1 ? "page " list[1] " in it differs" : "pages " joined(list, n) " in it differ")
  }
  if (!told) fail("R7")
}

BEGIN { old = toupper(old); new = toupper(new); nblocks = split(blocks, block, " "); ngot = -1 }
{ got[++ngot] = $0 }
END {
  if (mode == "refused") { tell_refused(); exit }
  if (mode == "first") { setup_line(); protect_lines(); if (half) half_line(half); print_lines(0); exit }
  if (mode == "case") before_plan()
  else heading(known())
  read_plan()
  if (mode == "case") after_plan()
  else heading(summary())
  if (mode == "records") for (i = 1; i <= ngot; i++) printf "%s", got[i]
  else print_lines(mode == "case")
}
