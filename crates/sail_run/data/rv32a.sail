/* RV32A, atomic instructions: 11 instructions, in the order of the manual's table of them. A step of a hart is whole
   before another begins, so aq and rl order nothing. Their addresses are multiples of four. */

/* The address of a word that is only read */
val lr_address : regidx -> bits(64)
function lr_address(rs1) = {
  let address = zero_extend(64, X(rs1));
  if address[1 .. 0] != 0b00 then throw(E_Load_Addr_Align(address));
  address
}

/* The address of a word that may be written */
val amo_address : regidx -> bits(64)
function amo_address(rs1) = {
  let address = zero_extend(64, X(rs1));
  if address[1 .. 0] != 0b00 then throw(E_SAMO_Addr_Align(address));
  address
}

/* The word becomes the new one, and rd the old one. */
val amo : (regidx, bits(32), bits(32), regidx) -> Retired
function amo(rs1, new, old, rd) = {
  mem_write(4, amo_address(rs1), new);
  X(rd) = sign_extend(xlen, old);
  RETIRE_SUCCESS
}

/* LR.W: rd is the word, and the hart's reservation is on its bytes. */
union clause ast = LR_W : (bits(1), bits(1), regidx, regidx)
mapping clause encdec = LR_W(aq, rl, rs1, rd) <-> 0b00010 @ aq @ rl @ 0b00000 @ rs1 @ 0b010 @ rd @ 0b0101111
function clause execute(LR_W(aq, rl, rs1, rd)) = {
  X(rd) = sign_extend(xlen, mem_reserve(4, lr_address(rs1)));
  RETIRE_SUCCESS
}

/* SC.W: where the hart's reservation still stands on these bytes the word is written and rd is 0, else rd is 1. */
union clause ast = SC_W : (bits(1), bits(1), regidx, regidx, regidx)
mapping clause encdec = SC_W(aq, rl, rs2, rs1, rd) <-> 0b00011 @ aq @ rl @ rs2 @ rs1 @ 0b010 @ rd @ 0b0101111
function clause execute(SC_W(aq, rl, rs2, rs1, rd)) = {
  let written = mem_write_cond(4, amo_address(rs1), truncate(X(rs2), 32));
  X(rd) = zero_extend(xlen, bool_to_bits(not(written)));
  RETIRE_SUCCESS
}

/* The word becomes what the instruction makes of it and rs2; rd is the word as it was. */

union clause ast = AMOSWAP_W : (bits(1), bits(1), regidx, regidx, regidx)
mapping clause encdec = AMOSWAP_W(aq, rl, rs2, rs1, rd)
  <-> 0b00001 @ aq @ rl @ rs2 @ rs1 @ 0b010 @ rd @ 0b0101111
function clause execute(AMOSWAP_W(aq, rl, rs2, rs1, rd)) = {
  let old = mem_read(4, amo_address(rs1));
  amo(rs1, X(rs2)[31 .. 0], old, rd)
}

union clause ast = AMOADD_W : (bits(1), bits(1), regidx, regidx, regidx)
mapping clause encdec = AMOADD_W(aq, rl, rs2, rs1, rd)
  <-> 0b00000 @ aq @ rl @ rs2 @ rs1 @ 0b010 @ rd @ 0b0101111
function clause execute(AMOADD_W(aq, rl, rs2, rs1, rd)) = {
  let old = mem_read(4, amo_address(rs1));
  amo(rs1, old + X(rs2)[31 .. 0], old, rd)
}

union clause ast = AMOXOR_W : (bits(1), bits(1), regidx, regidx, regidx)
mapping clause encdec = AMOXOR_W(aq, rl, rs2, rs1, rd)
  <-> 0b00100 @ aq @ rl @ rs2 @ rs1 @ 0b010 @ rd @ 0b0101111
function clause execute(AMOXOR_W(aq, rl, rs2, rs1, rd)) = {
  let old = mem_read(4, amo_address(rs1));
  amo(rs1, old ^ X(rs2)[31 .. 0], old, rd)
}

union clause ast = AMOAND_W : (bits(1), bits(1), regidx, regidx, regidx)
mapping clause encdec = AMOAND_W(aq, rl, rs2, rs1, rd)
  <-> 0b01100 @ aq @ rl @ rs2 @ rs1 @ 0b010 @ rd @ 0b0101111
function clause execute(AMOAND_W(aq, rl, rs2, rs1, rd)) = {
  let old = mem_read(4, amo_address(rs1));
  amo(rs1, old & X(rs2)[31 .. 0], old, rd)
}

union clause ast = AMOOR_W : (bits(1), bits(1), regidx, regidx, regidx)
mapping clause encdec = AMOOR_W(aq, rl, rs2, rs1, rd)
  <-> 0b01000 @ aq @ rl @ rs2 @ rs1 @ 0b010 @ rd @ 0b0101111
function clause execute(AMOOR_W(aq, rl, rs2, rs1, rd)) = {
  let old = mem_read(4, amo_address(rs1));
  amo(rs1, old | X(rs2)[31 .. 0], old, rd)
}

union clause ast = AMOMIN_W : (bits(1), bits(1), regidx, regidx, regidx)
mapping clause encdec = AMOMIN_W(aq, rl, rs2, rs1, rd)
  <-> 0b10000 @ aq @ rl @ rs2 @ rs1 @ 0b010 @ rd @ 0b0101111
function clause execute(AMOMIN_W(aq, rl, rs2, rs1, rd)) = {
  let old = mem_read(4, amo_address(rs1));
  let operand = X(rs2)[31 .. 0];
  amo(rs1, if old <_s operand then old else operand, old, rd)
}

union clause ast = AMOMAX_W : (bits(1), bits(1), regidx, regidx, regidx)
mapping clause encdec = AMOMAX_W(aq, rl, rs2, rs1, rd)
  <-> 0b10100 @ aq @ rl @ rs2 @ rs1 @ 0b010 @ rd @ 0b0101111
function clause execute(AMOMAX_W(aq, rl, rs2, rs1, rd)) = {
  let old = mem_read(4, amo_address(rs1));
  let operand = X(rs2)[31 .. 0];
  amo(rs1, if old >_s operand then old else operand, old, rd)
}

union clause ast = AMOMINU_W : (bits(1), bits(1), regidx, regidx, regidx)
mapping clause encdec = AMOMINU_W(aq, rl, rs2, rs1, rd)
  <-> 0b11000 @ aq @ rl @ rs2 @ rs1 @ 0b010 @ rd @ 0b0101111
function clause execute(AMOMINU_W(aq, rl, rs2, rs1, rd)) = {
  let old = mem_read(4, amo_address(rs1));
  let operand = X(rs2)[31 .. 0];
  amo(rs1, if old <_u operand then old else operand, old, rd)
}

union clause ast = AMOMAXU_W : (bits(1), bits(1), regidx, regidx, regidx)
mapping clause encdec = AMOMAXU_W(aq, rl, rs2, rs1, rd)
  <-> 0b11100 @ aq @ rl @ rs2 @ rs1 @ 0b010 @ rd @ 0b0101111
function clause execute(AMOMAXU_W(aq, rl, rs2, rs1, rd)) = {
  let old = mem_read(4, amo_address(rs1));
  let operand = X(rs2)[31 .. 0];
  amo(rs1, if old >_u operand then old else operand, old, rd)
}
