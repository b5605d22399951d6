/* RV64M, what it has beside RV32M: 5 instructions, in the order of the manual's table of them. They work on the lower 32
   bits, and rd is extended by the sign of the result. */

union clause ast = MULW : (regidx, regidx, regidx)
mapping clause encdec = MULW(rs2, rs1, rd) <-> 0b0000001 @ rs2 @ rs1 @ 0b000 @ rd @ 0b0111011
function clause execute(MULW(rs2, rs1, rd)) = {
  X(rd) = sign_extend(xlen, X(rs1)[31 .. 0] * X(rs2)[31 .. 0]);
  RETIRE_SUCCESS
}

union clause ast = DIVW : (regidx, regidx, regidx)
mapping clause encdec = DIVW(rs2, rs1, rd) <-> 0b0000001 @ rs2 @ rs1 @ 0b100 @ rd @ 0b0111011
function clause execute(DIVW(rs2, rs1, rd)) = {
  let n = signed(X(rs1)[31 .. 0]);
  let d = signed(X(rs2)[31 .. 0]);
  X(rd) = if d == 0 then ones(xlen) else sign_extend(xlen, to_bits(32, tdiv_int(n, d)));
  RETIRE_SUCCESS
}

union clause ast = DIVUW : (regidx, regidx, regidx)
mapping clause encdec = DIVUW(rs2, rs1, rd) <-> 0b0000001 @ rs2 @ rs1 @ 0b101 @ rd @ 0b0111011
function clause execute(DIVUW(rs2, rs1, rd)) = {
  let n = unsigned(X(rs1)[31 .. 0]);
  let d = unsigned(X(rs2)[31 .. 0]);
  X(rd) = if d == 0 then ones(xlen) else sign_extend(xlen, to_bits(32, tdiv_int(n, d)));
  RETIRE_SUCCESS
}

union clause ast = REMW : (regidx, regidx, regidx)
mapping clause encdec = REMW(rs2, rs1, rd) <-> 0b0000001 @ rs2 @ rs1 @ 0b110 @ rd @ 0b0111011
function clause execute(REMW(rs2, rs1, rd)) = {
  let n = signed(X(rs1)[31 .. 0]);
  let d = signed(X(rs2)[31 .. 0]);
  let r = if d == 0 then X(rs1)[31 .. 0] else to_bits(32, tmod_int(n, d));
  X(rd) = sign_extend(xlen, r);
  RETIRE_SUCCESS
}

union clause ast = REMUW : (regidx, regidx, regidx)
mapping clause encdec = REMUW(rs2, rs1, rd) <-> 0b0000001 @ rs2 @ rs1 @ 0b111 @ rd @ 0b0111011
function clause execute(REMUW(rs2, rs1, rd)) = {
  let n = unsigned(X(rs1)[31 .. 0]);
  let d = unsigned(X(rs2)[31 .. 0]);
  let r = if d == 0 then X(rs1)[31 .. 0] else to_bits(32, tmod_int(n, d));
  X(rd) = sign_extend(xlen, r);
  RETIRE_SUCCESS
}
