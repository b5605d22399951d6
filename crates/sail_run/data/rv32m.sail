/* RV32M, multiplication and division: 8 instructions, in the order of the manual's table of them. */

/* The lower half of the product */
union clause ast = MUL : (regidx, regidx, regidx)
mapping clause encdec = MUL(rs2, rs1, rd) <-> 0b0000001 @ rs2 @ rs1 @ 0b000 @ rd @ 0b0110011
function clause execute(MUL(rs2, rs1, rd)) = {
  X(rd) = X(rs1) * X(rs2);
  RETIRE_SUCCESS
}

/* The upper half of the product: of signed numbers, of a signed rs1 and an unsigned rs2, of unsigned numbers */

union clause ast = MULH : (regidx, regidx, regidx)
mapping clause encdec = MULH(rs2, rs1, rd) <-> 0b0000001 @ rs2 @ rs1 @ 0b001 @ rd @ 0b0110011
function clause execute(MULH(rs2, rs1, rd)) = {
  X(rd) = mul_wide_ss(X(rs1), X(rs2))[2 * xlen - 1 .. xlen];
  RETIRE_SUCCESS
}

union clause ast = MULHSU : (regidx, regidx, regidx)
mapping clause encdec = MULHSU(rs2, rs1, rd) <-> 0b0000001 @ rs2 @ rs1 @ 0b010 @ rd @ 0b0110011
function clause execute(MULHSU(rs2, rs1, rd)) = {
  X(rd) = mul_wide_su(X(rs1), X(rs2))[2 * xlen - 1 .. xlen];
  RETIRE_SUCCESS
}

union clause ast = MULHU : (regidx, regidx, regidx)
mapping clause encdec = MULHU(rs2, rs1, rd) <-> 0b0000001 @ rs2 @ rs1 @ 0b011 @ rd @ 0b0110011
function clause execute(MULHU(rs2, rs1, rd)) = {
  X(rd) = mul_wide_uu(X(rs1), X(rs2))[2 * xlen - 1 .. xlen];
  RETIRE_SUCCESS
}

/* Quotients, towards zero. By zero the quotient has all bits set; the most negative number by -1 is that number. */

union clause ast = DIV : (regidx, regidx, regidx)
mapping clause encdec = DIV(rs2, rs1, rd) <-> 0b0000001 @ rs2 @ rs1 @ 0b100 @ rd @ 0b0110011
function clause execute(DIV(rs2, rs1, rd)) = {
  let n = signed(X(rs1));
  let d = signed(X(rs2));
  X(rd) = if d == 0 then ones(xlen) else to_bits(xlen, tdiv_int(n, d));
  RETIRE_SUCCESS
}

union clause ast = DIVU : (regidx, regidx, regidx)
mapping clause encdec = DIVU(rs2, rs1, rd) <-> 0b0000001 @ rs2 @ rs1 @ 0b101 @ rd @ 0b0110011
function clause execute(DIVU(rs2, rs1, rd)) = {
  let n = unsigned(X(rs1));
  let d = unsigned(X(rs2));
  X(rd) = if d == 0 then ones(xlen) else to_bits(xlen, tdiv_int(n, d));
  RETIRE_SUCCESS
}

/* Remainders, with the sign of rs1. By zero the remainder is rs1; of the most negative number by -1 it is 0. */

union clause ast = REM : (regidx, regidx, regidx)
mapping clause encdec = REM(rs2, rs1, rd) <-> 0b0000001 @ rs2 @ rs1 @ 0b110 @ rd @ 0b0110011
function clause execute(REM(rs2, rs1, rd)) = {
  let n = signed(X(rs1));
  let d = signed(X(rs2));
  X(rd) = if d == 0 then X(rs1) else to_bits(xlen, tmod_int(n, d));
  RETIRE_SUCCESS
}

union clause ast = REMU : (regidx, regidx, regidx)
mapping clause encdec = REMU(rs2, rs1, rd) <-> 0b0000001 @ rs2 @ rs1 @ 0b111 @ rd @ 0b0110011
function clause execute(REMU(rs2, rs1, rd)) = {
  let n = unsigned(X(rs1));
  let d = unsigned(X(rs2));
  X(rd) = if d == 0 then X(rs1) else to_bits(xlen, tmod_int(n, d));
  RETIRE_SUCCESS
}
