/* RV64I, what it has beside RV32I: 12 instructions, in the order of the manual's table of them, and the constant shifts by
   32 and more. The forms with W work on the lower 32 bits, and rd is extended by the sign of the result. */

/* Loads and stores */

union clause ast = LWU : (bits(12), regidx, regidx)
mapping clause encdec = LWU(imm, rs1, rd) <-> imm @ rs1 @ 0b110 @ rd @ 0b0000011
function clause execute(LWU(imm, rs1, rd)) = {
  X(rd) = zero_extend(xlen, mem_read(4, vaddr(rs1, imm)));
  RETIRE_SUCCESS
}

union clause ast = LD : (bits(12), regidx, regidx)
mapping clause encdec = LD(imm, rs1, rd) <-> imm @ rs1 @ 0b011 @ rd @ 0b0000011
function clause execute(LD(imm, rs1, rd)) = {
  X(rd) = sign_extend(xlen, mem_read(8, vaddr(rs1, imm)));
  RETIRE_SUCCESS
}

union clause ast = SD : (bits(12), regidx, regidx)
mapping clause encdec = SD(imm11_5 @ imm4_0, rs2, rs1)
  <-> imm11_5 : bits(7) @ rs2 @ rs1 @ 0b011 @ imm4_0 : bits(5) @ 0b0100011
function clause execute(SD(imm, rs2, rs1)) = {
  mem_write(8, vaddr(rs1, imm), X(rs2));
  RETIRE_SUCCESS
}

/* SLLI, SRLI and SRAI by 32 and more: the sixth bit of the amount, which RV32I hasn't, is set */

union clause ast = SLLI_32 : (bits(5), regidx, regidx)
mapping clause encdec = SLLI_32(shamt, rs1, rd) <-> 0b0000001 @ shamt @ rs1 @ 0b001 @ rd @ 0b0010011
function clause execute(SLLI_32(shamt, rs1, rd)) = {
  X(rd) = X(rs1) << (0b1 @ shamt);
  RETIRE_SUCCESS
}

union clause ast = SRLI_32 : (bits(5), regidx, regidx)
mapping clause encdec = SRLI_32(shamt, rs1, rd) <-> 0b0000001 @ shamt @ rs1 @ 0b101 @ rd @ 0b0010011
function clause execute(SRLI_32(shamt, rs1, rd)) = {
  X(rd) = X(rs1) >> (0b1 @ shamt);
  RETIRE_SUCCESS
}

union clause ast = SRAI_32 : (bits(5), regidx, regidx)
mapping clause encdec = SRAI_32(shamt, rs1, rd) <-> 0b0100001 @ shamt @ rs1 @ 0b101 @ rd @ 0b0010011
function clause execute(SRAI_32(shamt, rs1, rd)) = {
  X(rd) = arith_shiftr_bits(X(rs1), 0b1 @ shamt);
  RETIRE_SUCCESS
}

/* A register and a constant */

union clause ast = ADDIW : (bits(12), regidx, regidx)
mapping clause encdec = ADDIW(imm, rs1, rd) <-> imm @ rs1 @ 0b000 @ rd @ 0b0011011
function clause execute(ADDIW(imm, rs1, rd)) = {
  X(rd) = sign_extend(xlen, X(rs1)[31 .. 0] + sign_extend(32, imm));
  RETIRE_SUCCESS
}

union clause ast = SLLIW : (bits(5), regidx, regidx)
mapping clause encdec = SLLIW(shamt, rs1, rd) <-> 0b0000000 @ shamt @ rs1 @ 0b001 @ rd @ 0b0011011
function clause execute(SLLIW(shamt, rs1, rd)) = {
  X(rd) = sign_extend(xlen, X(rs1)[31 .. 0] << shamt);
  RETIRE_SUCCESS
}

union clause ast = SRLIW : (bits(5), regidx, regidx)
mapping clause encdec = SRLIW(shamt, rs1, rd) <-> 0b0000000 @ shamt @ rs1 @ 0b101 @ rd @ 0b0011011
function clause execute(SRLIW(shamt, rs1, rd)) = {
  X(rd) = sign_extend(xlen, X(rs1)[31 .. 0] >> shamt);
  RETIRE_SUCCESS
}

union clause ast = SRAIW : (bits(5), regidx, regidx)
mapping clause encdec = SRAIW(shamt, rs1, rd) <-> 0b0100000 @ shamt @ rs1 @ 0b101 @ rd @ 0b0011011
function clause execute(SRAIW(shamt, rs1, rd)) = {
  X(rd) = sign_extend(xlen, arith_shiftr_bits(X(rs1)[31 .. 0], shamt));
  RETIRE_SUCCESS
}

/* Two registers. A shift looks at the lowest five bits of rs2 alone. */

union clause ast = ADDW : (regidx, regidx, regidx)
mapping clause encdec = ADDW(rs2, rs1, rd) <-> 0b0000000 @ rs2 @ rs1 @ 0b000 @ rd @ 0b0111011
function clause execute(ADDW(rs2, rs1, rd)) = {
  X(rd) = sign_extend(xlen, X(rs1)[31 .. 0] + X(rs2)[31 .. 0]);
  RETIRE_SUCCESS
}

union clause ast = SUBW : (regidx, regidx, regidx)
mapping clause encdec = SUBW(rs2, rs1, rd) <-> 0b0100000 @ rs2 @ rs1 @ 0b000 @ rd @ 0b0111011
function clause execute(SUBW(rs2, rs1, rd)) = {
  X(rd) = sign_extend(xlen, X(rs1)[31 .. 0] - X(rs2)[31 .. 0]);
  RETIRE_SUCCESS
}

union clause ast = SLLW : (regidx, regidx, regidx)
mapping clause encdec = SLLW(rs2, rs1, rd) <-> 0b0000000 @ rs2 @ rs1 @ 0b001 @ rd @ 0b0111011
function clause execute(SLLW(rs2, rs1, rd)) = {
  X(rd) = sign_extend(xlen, X(rs1)[31 .. 0] << X(rs2)[4 .. 0]);
  RETIRE_SUCCESS
}

union clause ast = SRLW : (regidx, regidx, regidx)
mapping clause encdec = SRLW(rs2, rs1, rd) <-> 0b0000000 @ rs2 @ rs1 @ 0b101 @ rd @ 0b0111011
function clause execute(SRLW(rs2, rs1, rd)) = {
  X(rd) = sign_extend(xlen, X(rs1)[31 .. 0] >> X(rs2)[4 .. 0]);
  RETIRE_SUCCESS
}

union clause ast = SRAW : (regidx, regidx, regidx)
mapping clause encdec = SRAW(rs2, rs1, rd) <-> 0b0100000 @ rs2 @ rs1 @ 0b101 @ rd @ 0b0111011
function clause execute(SRAW(rs2, rs1, rd)) = {
  X(rd) = sign_extend(xlen, arith_shiftr_bits(X(rs1)[31 .. 0], X(rs2)[4 .. 0]));
  RETIRE_SUCCESS
}
