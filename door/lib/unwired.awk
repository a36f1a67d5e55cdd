# What the story of a run (story.awk) has beside the two wires, for ./plungerhen wave --beside: in the words of cases,
# with a time in front, as ./plungerhen capture --beside reads it. Ticks are not among them. CASE in the environment is
# the case's name; words.awk is read before this.

BEGIN { print "# what the run of " ENVIRON["CASE"] " has beside the two wires" }
$1 == "E" && $4 < $5 && $6 ~ /^([5789]|10)$/ { printf "at %.3f ms %s\n", ($4 + 10) / 1000, record_words($6, $7, $8) }
