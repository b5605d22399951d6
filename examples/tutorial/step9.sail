default Order dec

register PC : bits(64)
register R : vector(16, bits(16))

/* The instructions */
union ast = {
  HALT : bits(12),
  SET : (bits(4), bits(8)),
  ADDI : (bits(4), bits(8)),
  ADD : (bits(4), bits(4)),
  JNZ : (bits(4), bits(8))
}

/* Their words. Twelve bits of HALT mean nothing. */
mapping encdec : ast <-> bits(16) = {
  HALT(b) <-> 0x0 @ b,
  SET(rd, b) <-> 0x1 @ rd @ b,
  ADDI(rd, b) <-> 0x2 @ rd @ b,
  ADD(rd, rs) <-> 0x3 @ rd @ rs @ 0x0,
  JNZ(rd, b) <-> 0x4 @ rd @ b
}

/* What they do. HALT leaves PC where it is, and the hart rests. */
val execute : ast -> bool
function execute(instruction) = match instruction {
  HALT(_) => false,
  SET(rd, b) => { R[unsigned(rd)] = zero_extend(16, b); PC = PC + 2; true },
  ADDI(rd, b) => { R[unsigned(rd)] = R[unsigned(rd)] + sign_extend(16, b); PC = PC + 2; true },
  ADD(rd, rs) => { R[unsigned(rd)] = R[unsigned(rd)] + R[unsigned(rs)]; PC = PC + 2; true },
  JNZ(rd, b) => { PC = PC + (if R[unsigned(rd)] == 0x0000 then 2 else 2 * signed(b)); true }
}

val reset : (range(0, 7), bits(64)) -> unit
function reset(h, e) = { PC = e }

val step : unit -> bool
function step() = execute(encdec(mem_read(2, PC)))
