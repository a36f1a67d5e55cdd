# A VCD file of ours with SDA turned over in one clock, for tests/door/wires: the one whose rise of SCL is at the time
# `rise`. SDA moves two microseconds behind SCL's fall, so it is turned from three before the rise to seven behind it.

function level(at, value) {
  if (at != shown) print "#" at
  print value "d"
}
function up_to(time) {
  if (!turned && rise - 3 < time) { level(rise - 3, 1 - sda); shown = rise - 3; turned = 1 }
  if (turned == 1 && rise + 7 < time) { level(rise + 7, sda); shown = rise + 7; turned = 2 }
}

/^#/ { up_to(substr($0, 2) + 0); shown = substr($0, 2) + 0; print; next }
/^[01]d$/ { sda = substr($0, 1, 1); if (shown == rise - 3 || shown == rise + 7) next }
{ print }
END { up_to(1e15) }
