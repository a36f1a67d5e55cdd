# The pins that a case looks at, for ./plungerhen case and resume: the case's plan (reading.awk), each row L with one field
# more, the pin as the program that was asked (watched.awk) has it behind the events before. bench.awk and watched.awk
# are read before this.

function pin(slot) {
  if (!(slot in stands) || !has_sensor(number_of(stands[slot], "kind"))) return "none"
  if (!tells_pin(stands[slot])) fail("the program " asked " does not tell the pin of slot " slot)
  return pin_words(stands[slot])
}
END {
  for (r = 1; r <= nrows; r++) {
    $0 = rows[r]
    if ($1 == "P") set_up($2)
    if ($1 == "E") answer_to(++n)
    print rows[r] ($1 == "L" ? "\t" pin($7) : "")
  }
  said_all()
}
