register PC : bits(64)
register R : vector(16, bits(16))

val reset : (range(0, 7), bits(64)) -> unit
function reset(h, e) = { PC = e }

val step : unit -> bool
function step() = true
