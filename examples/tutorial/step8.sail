register PC : bits(64)
register R : vector(16, bits(16))

union ast = {
  HALT : bits(12),
  SET : (bits(4), bits(8))
}

val execute : ast -> bool
function execute(instruction) = match instruction {
  HALT(_) => false,
  SET(rd, b) => { R[unsigned(rd)] = zero_extend(16, b); PC = PC + 2; true }
}

val reset : (range(0, 7), bits(64)) -> unit
function reset(h, e) = { PC = e }

val step : unit -> bool
function step() = execute(SET(0x1, 0x05))
