# A VCD file of ours, read as sigrok's I2C decoder reads it, and written as sigrok-cli -A i2c=addr-data
# --protocol-decoder-samplenum writes it, for tests/door/wires: so that a wave can be held against what the real decoder
# said of it, where there is no sigrok. It follows the decoder's states (libsigrokdecode 0.5.3), its weak places too:
# behind a start it waits for eight rises of SCL, and sees no other start and no stop before them.

function say(from, to, text) { print from "-" to " i2c-1: " text }
function condition(text) { say(now, now, text) }

function started() {
  condition(repeated ? "Start repeat" : "Start")
  state = "address"; bits = value = 0; repeated = 1
}
function stopped() { condition("Stop"); state = "start"; repeated = 0 }

function bit() {
  if (!bits) from = now
  value = 2 * value + sda
  width = now - last
  if (++bits < 8) return
  if (state == "address") {
    reads = value % 2
    say(now, now + width, reads ? "Read" : "Write")
    say(from, now, sprintf("Address %s: %02X", reads ? "read" : "write", int(value / 2)))
  }
  else say(from, now + width, sprintf("Data %s: %02X", reads ? "read" : "write", value))
  state = "ack"; bits = value = 0
}

function rise() {
  if (state == "ack") { say(now, now + width, sda ? "NACK" : "ACK"); state = "data" }
  else if (state != "start") bit()
  last = now
}

BEGIN { state = "start"; scl = sda = 1 }
/^#/ { now = substr($0, 2) }
$0 == "0c" { scl = 0 }
$0 == "1c" { if (!scl) rise(); scl = 1 }
$0 == "0d" { if (scl && sda && state ~ /start|data/) started(); sda = 0 }
$0 == "1d" { if (scl && !sda && state == "data") stopped(); sda = 1 }
