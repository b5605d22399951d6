register R : vector(16, bits(16))

val reset : (range(0, 7), bits(64)) -> unit
function reset(h, e) = ()

val step : unit -> bool
function step() = {
  while termination_measure { unsigned(R[0]) } R[0] != 0x0000 do R[0] = R[0] - 1;
  true
}
