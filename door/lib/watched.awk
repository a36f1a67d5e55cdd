# What a program said of a case, beside the case's plan, for story.awk and pins.awk, which put their own END behind this.
#
# Reads the plan (reading.awk), a line GOT, and the lines of the program `asked`: of `watch`, or, from a saved bench on,
# of `show`. bench.awk is read before this.
#
#   rows[1..nrows]  the plan's rows
#   set_up(pairs)   takes the lines behind the setup, whose numbers these are
#   answer_to(n)    takes those of event n, and gives its answer
#   said_all()      sees that there are no more
#   stands[slot]    the slot's last line of those that were taken; moved[1..nmoved] are the slots that the last ones told
#
# Lines that are not those of this case end with status 1 and a line that says so.

function take_slots(   slot) {
  for (nmoved = 0; is_slot(got[taken + 1]); moved[++nmoved] = slot) { slot = got[++taken] + 0; stands[slot] = got[taken] }
}
function set_up(pairs,   w, i) {
  take_slots()
  split(pairs, w, " ")
  for (i = 0; i < SLOTS; i++)
    if (w[2 * i + 1] && !(i in stands)) fail("the program " asked " does not tell where slot " i " stands")
}
function answer_to(n,   answer) {
  answer = got[++taken]
  if (answer == "") fail("the program " asked " has no answer to event " n)
  take_slots()
  return answer
}
function said_all() { if (taken < ngot) fail("the program " asked " says more than there are events: " got[taken + 1]) }

watched { got[++ngot] = $0; next }
$0 == "GOT" { watched = 1; next }
{ rows[++nrows] = $0 }
