/* RV64A, what it has beside RV32A: 11 instructions on 64 bits, in the order of the manual's table of them. Their addresses
   are multiples of eight. */

/* The address of eight bytes that are only read */
val lr_address_d : regidx -> bits(64)
function lr_address_d(rs1) = {
  let address = zero_extend(64, X(rs1));
  if address[2 .. 0] != 0b000 then throw(E_Load_Addr_Align(address));
  address
}

/* The address of eight bytes that may be written */
val amo_address_d : regidx -> bits(64)
function amo_address_d(rs1) = {
  let address = zero_extend(64, X(rs1));
  if address[2 .. 0] != 0b000 then throw(E_SAMO_Addr_Align(address));
  address
}

/* The eight bytes become the new ones, and rd the old ones. */
val amo_d : (regidx, bits(64), bits(64), regidx) -> Retired
function amo_d(rs1, new, old, rd) = {
  mem_write(8, amo_address_d(rs1), new);
  X(rd) = old;
  RETIRE_SUCCESS
}

/* LR.D: rd is what stands there, and the hart's reservation is on its bytes. */
union clause ast = LR_D : (bits(1), bits(1), regidx, regidx)
mapping clause encdec = LR_D(aq, rl, rs1, rd) <-> 0b00010 @ aq @ rl @ 0b00000 @ rs1 @ 0b011 @ rd @ 0b0101111
function clause execute(LR_D(aq, rl, rs1, rd)) = {
  X(rd) = mem_reserve(8, lr_address_d(rs1));
  RETIRE_SUCCESS
}

/* SC.D: where the hart's reservation still stands on these bytes they are written and rd is 0, else rd is 1. */
union clause ast = SC_D : (bits(1), bits(1), regidx, regidx, regidx)
mapping clause encdec = SC_D(aq, rl, rs2, rs1, rd) <-> 0b00011 @ aq @ rl @ rs2 @ rs1 @ 0b011 @ rd @ 0b0101111
function clause execute(SC_D(aq, rl, rs2, rs1, rd)) = {
  let written = mem_write_cond(8, amo_address_d(rs1), X(rs2));
  X(rd) = zero_extend(xlen, bool_to_bits(not(written)));
  RETIRE_SUCCESS
}

/* The eight bytes become what the instruction makes of them and rs2; rd is what they were. */

union clause ast = AMOSWAP_D : (bits(1), bits(1), regidx, regidx, regidx)
mapping clause encdec = AMOSWAP_D(aq, rl, rs2, rs1, rd)
  <-> 0b00001 @ aq @ rl @ rs2 @ rs1 @ 0b011 @ rd @ 0b0101111
function clause execute(AMOSWAP_D(aq, rl, rs2, rs1, rd)) = {
  let old = mem_read(8, amo_address_d(rs1));
  amo_d(rs1, X(rs2), old, rd)
}

union clause ast = AMOADD_D : (bits(1), bits(1), regidx, regidx, regidx)
mapping clause encdec = AMOADD_D(aq, rl, rs2, rs1, rd)
  <-> 0b00000 @ aq @ rl @ rs2 @ rs1 @ 0b011 @ rd @ 0b0101111
function clause execute(AMOADD_D(aq, rl, rs2, rs1, rd)) = {
  let old = mem_read(8, amo_address_d(rs1));
  amo_d(rs1, old + X(rs2), old, rd)
}

union clause ast = AMOXOR_D : (bits(1), bits(1), regidx, regidx, regidx)
mapping clause encdec = AMOXOR_D(aq, rl, rs2, rs1, rd)
  <-> 0b00100 @ aq @ rl @ rs2 @ rs1 @ 0b011 @ rd @ 0b0101111
function clause execute(AMOXOR_D(aq, rl, rs2, rs1, rd)) = {
  let old = mem_read(8, amo_address_d(rs1));
  amo_d(rs1, old ^ X(rs2), old, rd)
}

union clause ast = AMOAND_D : (bits(1), bits(1), regidx, regidx, regidx)
mapping clause encdec = AMOAND_D(aq, rl, rs2, rs1, rd)
  <-> 0b01100 @ aq @ rl @ rs2 @ rs1 @ 0b011 @ rd @ 0b0101111
function clause execute(AMOAND_D(aq, rl, rs2, rs1, rd)) = {
  let old = mem_read(8, amo_address_d(rs1));
  amo_d(rs1, old & X(rs2), old, rd)
}

union clause ast = AMOOR_D : (bits(1), bits(1), regidx, regidx, regidx)
mapping clause encdec = AMOOR_D(aq, rl, rs2, rs1, rd)
  <-> 0b01000 @ aq @ rl @ rs2 @ rs1 @ 0b011 @ rd @ 0b0101111
function clause execute(AMOOR_D(aq, rl, rs2, rs1, rd)) = {
  let old = mem_read(8, amo_address_d(rs1));
  amo_d(rs1, old | X(rs2), old, rd)
}

union clause ast = AMOMIN_D : (bits(1), bits(1), regidx, regidx, regidx)
mapping clause encdec = AMOMIN_D(aq, rl, rs2, rs1, rd)
  <-> 0b10000 @ aq @ rl @ rs2 @ rs1 @ 0b011 @ rd @ 0b0101111
function clause execute(AMOMIN_D(aq, rl, rs2, rs1, rd)) = {
  let old = mem_read(8, amo_address_d(rs1));
  amo_d(rs1, if old <_s X(rs2) then old else X(rs2), old, rd)
}

union clause ast = AMOMAX_D : (bits(1), bits(1), regidx, regidx, regidx)
mapping clause encdec = AMOMAX_D(aq, rl, rs2, rs1, rd)
  <-> 0b10100 @ aq @ rl @ rs2 @ rs1 @ 0b011 @ rd @ 0b0101111
function clause execute(AMOMAX_D(aq, rl, rs2, rs1, rd)) = {
  let old = mem_read(8, amo_address_d(rs1));
  amo_d(rs1, if old >_s X(rs2) then old else X(rs2), old, rd)
}

union clause ast = AMOMINU_D : (bits(1), bits(1), regidx, regidx, regidx)
mapping clause encdec = AMOMINU_D(aq, rl, rs2, rs1, rd)
  <-> 0b11000 @ aq @ rl @ rs2 @ rs1 @ 0b011 @ rd @ 0b0101111
function clause execute(AMOMINU_D(aq, rl, rs2, rs1, rd)) = {
  let old = mem_read(8, amo_address_d(rs1));
  amo_d(rs1, if old <_u X(rs2) then old else X(rs2), old, rd)
}

union clause ast = AMOMAXU_D : (bits(1), bits(1), regidx, regidx, regidx)
mapping clause encdec = AMOMAXU_D(aq, rl, rs2, rs1, rd)
  <-> 0b11100 @ aq @ rl @ rs2 @ rs1 @ 0b011 @ rd @ 0b0101111
function clause execute(AMOMAXU_D(aq, rl, rs2, rs1, rd)) = {
  let old = mem_read(8, amo_address_d(rs1));
  amo_d(rs1, if old >_u X(rs2) then old else X(rs2), old, rd)
}
