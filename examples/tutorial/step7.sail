register PC : bits(64)
register R : vector(16, bits(16))

val reset : (range(0, 7), bits(64)) -> unit
function reset(h, e) = { PC = e }

val step : unit -> bool
function step() = match mem_read(2, PC) {
  0x0 @ (b : bits(12)) => false,
  0x1 @ (rd : bits(4)) @ (b : bits(8)) => {
    R[unsigned(rd)] = zero_extend(16, b);
    PC = PC + 2;
    true
  },
  0x2 @ (rd : bits(4)) @ (b : bits(8)) => {
    R[unsigned(rd)] = R[unsigned(rd)] + sign_extend(16, b);
    PC = PC + 2;
    true
  },
  0x3 @ (rd : bits(4)) @ (rs : bits(4)) @ 0x0 => {
    R[unsigned(rd)] = R[unsigned(rd)] + R[unsigned(rs)];
    PC = PC + 2;
    true
  },
  0x4 @ (rd : bits(4)) @ (b : bits(8)) => {
    PC = PC + (if R[unsigned(rd)] == 0x0000 then 2 else 2 * signed(b));
    true
  }
}
