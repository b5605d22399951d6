register R : vector(16, bits(16))

val get : range(0, 31) -> bits(16)
function get(i) = if i < 16 then R[i] else 0x0000

val reset : (range(0, 7), bits(64)) -> unit
function reset(h, e) = ()

val step : unit -> bool
function step() = true
