register PC : bits(8)
val reset : (range(0, 7), bits(64)) -> unit
function reset(h, e) = ()
val step : unit -> bool
function step() = { PC = PC + 0x01; true }
