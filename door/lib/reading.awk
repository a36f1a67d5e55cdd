# A case file (examples/cases/README.md) read into a plan, for ./plungerhen case, wave, save and resume. The words are
# those of words.awk, which is read before this.
#
# One row a line, fields parted by tabs:
#   I  number of events, number of events and pins not compared, all bytes for the program as octal escapes
#   P  the numbers of the setup, or of the saved bench's
#   C  0, a line to show as it is (comment or setup)
#   S  line number, its text, "setup", the setup's answer
#   E  line number, its text, the event in words, the answer (? not compared, "nothing" no line at all), the comment
#      that stands behind it, where it is a line's last event, and its record: kind, slot and value
#   L  line number, its text, the same in words, the pin that is expected (? not compared), the comment that stands
#      behind it, and the slot whose pin it is
# or, alone, B: line number, what is wrong there.
#
#   strict  1: every line wants its answers
#   bench   empty, or the numbers of a saved bench's setup, from which the case is played: the case's own setup
#           must be the same or not there, and row I has the records alone

function row(text) { rows[++nrows] = text }

function setupline(left,   i) {
  if (nevents || looked) bad("setup comes before the first " (nevents ? "event" : "look at a pin"))
  setupwords(left)
  for (i = 0; i < SLOTS; i++) if ((i in kind) && !(i in named_at)) named_at[i] = NR
  last_setup = NR
  if (bench != "" && (cut || arrow)) bad("from a saved bench, the setup is whole and not refused")
  if (cut && !arrow) bad("a setup of fewer than " 2 * SLOTS " numbers is cut short: write -> short")
  row("C\t0\t" $0)
  if (arrow) {
    if (setupanswer != "") bad("the setup has its answer already")
    if (nwant != 1 || (want[1] != "R5" && want[1] != "short")) bad("a setup is answered R5 or short, or has no arrow")
    setupanswer = want[1]
    row("S\t" NR "\t" left "\tsetup\t" setupanswer)
  }
}

function setup_numbers(   i, list) {
  for (i = 0; i < SLOTS; i++) list = list (i ? " " : "") kind[i] + 0 " " size[i] + 0
  return list
}
# The setup that the case tells against that of the bench it is played from.
function slot_words(k, ticks) { return k ? (k in KIND ? KIND[k] : "of kind " k ",") " " ticks : "absent" }
function same_bench(   i, saved, here, there) {
  split(bench, saved, " ")
  for (i = 0; i < SLOTS; i++) {
    here = slot_words(kind[i], size[i]); there = slot_words(saved[2 * i + 1] + 0, saved[2 * i + 2])
    if (here == there) continue
    NR = (i in named_at) ? named_at[i] : last_setup
    bad("slot " i " is \"" here "\" in this case, and \"" there "\" in the saved bench")
  }
}

# A look at a pin. The rows of events go on behind it as if it were not there.
function pin_row(   slot) {
  slot = pin_line()
  if (setupanswer != "") bad("the setup is refused or cut short; there is no pin to look at")
  if (strict && !arrow) bad("no expected answer: -> is missing")
  if (!arrow) loose++
  looked = 1
  row("L\t" NR "\t" left "\tpin " slot "\t" (arrow ? right : "?") "\t" (note == "" ? "" : "   " note) "\t" slot)
}

{
  if (!parted()) { if ($0 ~ /[^ ]/) row("C\t0\t" $0); next }
  if (arrow && right == "") bad("nothing stands after the arrow (if no line is to come, write: nothing)")
  if (left ~ /^pin( |$)/) { lines++; pin_row(); next }
  if (right != "nothing") answer_list(right, "^(R[1-6]|short)$", "R2 to R5, short, nothing")
  lines++
  if (left ~ /^(slot|setup)( |$)/) { setupline(left); next }
  if (left ~ /^memory( |$)/) bad("a case begins with FFh in every byte; a file that tells the memory is a capture (./plungerhen capture)")

  if (form == "setup" && cut && !nevents) bad("the setup is cut short; no event can follow it")
  if (setupanswer == "short") bad("the setup is to be cut short; no event can follow it")
  if (strict && !arrow) bad("no expected answer: -> is missing")
  event_list(left)
  if (setupanswer == "R5" && right != "nothing") bad("after a refused setup no event is answered: write -> nothing")
  if (right == "nothing" && setupanswer != "R5") bad("only after a refused setup is nothing answered")
  if (!arrow) loose += nline
  else if (right != "nothing") match_list()
  for (i = 1; i <= nline; i++) {
    nevents++
    answer = !arrow ? "?" : right == "nothing" ? "nothing" : due[i]
    behind = i == nline && note != "" ? "   " note : ""
    row("E\t" NR "\t" left "\t" told[i] "\t" answer "\t" behind "\t" record_of(code[i]))
  }
}

END {
  if (wrong) exit
  if (!lines) { NR = NR ? NR : 1; bad("neither setup nor event in this file"); exit }
  if (bench != "" && form != "") same_bench()
  printf "I\t%d\t%d\t%s\n", nevents, loose, (bench == "" ? setupbytes() : "") input
  print "P\t" (bench == "" ? setup_numbers() : bench)
  for (i = 1; i <= nrows; i++) print rows[i]
}
