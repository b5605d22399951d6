val reset : (range(0, 7), bits(64)) -> unit
function reset(h, e) = ()

val step : unit -> bool
function step() = true
