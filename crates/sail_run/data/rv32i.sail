/* RV32I, the base integer instruction set: 40 instructions, in the order of the manual's table of them. Each has a clause
   of the tree, one of its encoding and one of what it does. */

/* LUI: imm above twelve zeros */
union clause ast = LUI : (bits(20), regidx)
mapping clause encdec = LUI(imm, rd) <-> imm @ rd @ 0b0110111
function clause execute(LUI(imm, rd)) = {
  X(rd) = sign_extend(xlen, imm @ 0x000);
  RETIRE_SUCCESS
}

/* AUIPC: the same, added to the instruction's own address */
union clause ast = AUIPC : (bits(20), regidx)
mapping clause encdec = AUIPC(imm, rd) <-> imm @ rd @ 0b0010111
function clause execute(AUIPC(imm, rd)) = {
  X(rd) = pc + sign_extend(xlen, imm @ 0x000);
  RETIRE_SUCCESS
}

/* JAL: a jump by imm; rd is the address behind it */
union clause ast = JAL : (bits(21), regidx)
mapping clause encdec = JAL(imm20 @ imm19_12 @ imm11 @ imm10_1 @ 0b0, rd)
  <-> imm20 : bits(1) @ imm10_1 : bits(10) @ imm11 : bits(1) @ imm19_12 : bits(8) @ rd @ 0b1101111
function clause execute(JAL(imm, rd)) = {
  let address = target(pc + sign_extend(xlen, imm));
  X(rd) = pc + 4;
  Retire_Jump(address)
}

/* JALR: a jump to rs1 plus imm, with the lowest bit cleared */
union clause ast = JALR : (bits(12), regidx, regidx)
mapping clause encdec = JALR(imm, rs1, rd) <-> imm @ rs1 @ 0b000 @ rd @ 0b1100111
function clause execute(JALR(imm, rs1, rd)) = {
  let address = target([X(rs1) + sign_extend(xlen, imm) with 0 = bitzero]);
  X(rd) = pc + 4;
  Retire_Jump(address)
}

/* Branches by imm */

union clause ast = BEQ : (bits(13), regidx, regidx)
mapping clause encdec = BEQ(imm12 @ imm11 @ imm10_5 @ imm4_1 @ 0b0, rs2, rs1)
  <-> imm12 : bits(1) @ imm10_5 : bits(6) @ rs2 @ rs1 @ 0b000 @ imm4_1 : bits(4) @ imm11 : bits(1) @ 0b1100011
function clause execute(BEQ(imm, rs2, rs1)) = branch(X(rs1) == X(rs2), imm)

union clause ast = BNE : (bits(13), regidx, regidx)
mapping clause encdec = BNE(imm12 @ imm11 @ imm10_5 @ imm4_1 @ 0b0, rs2, rs1)
  <-> imm12 : bits(1) @ imm10_5 : bits(6) @ rs2 @ rs1 @ 0b001 @ imm4_1 : bits(4) @ imm11 : bits(1) @ 0b1100011
function clause execute(BNE(imm, rs2, rs1)) = branch(X(rs1) != X(rs2), imm)

union clause ast = BLT : (bits(13), regidx, regidx)
mapping clause encdec = BLT(imm12 @ imm11 @ imm10_5 @ imm4_1 @ 0b0, rs2, rs1)
  <-> imm12 : bits(1) @ imm10_5 : bits(6) @ rs2 @ rs1 @ 0b100 @ imm4_1 : bits(4) @ imm11 : bits(1) @ 0b1100011
function clause execute(BLT(imm, rs2, rs1)) = branch(X(rs1) <_s X(rs2), imm)

union clause ast = BGE : (bits(13), regidx, regidx)
mapping clause encdec = BGE(imm12 @ imm11 @ imm10_5 @ imm4_1 @ 0b0, rs2, rs1)
  <-> imm12 : bits(1) @ imm10_5 : bits(6) @ rs2 @ rs1 @ 0b101 @ imm4_1 : bits(4) @ imm11 : bits(1) @ 0b1100011
function clause execute(BGE(imm, rs2, rs1)) = branch(X(rs1) >=_s X(rs2), imm)

union clause ast = BLTU : (bits(13), regidx, regidx)
mapping clause encdec = BLTU(imm12 @ imm11 @ imm10_5 @ imm4_1 @ 0b0, rs2, rs1)
  <-> imm12 : bits(1) @ imm10_5 : bits(6) @ rs2 @ rs1 @ 0b110 @ imm4_1 : bits(4) @ imm11 : bits(1) @ 0b1100011
function clause execute(BLTU(imm, rs2, rs1)) = branch(X(rs1) <_u X(rs2), imm)

union clause ast = BGEU : (bits(13), regidx, regidx)
mapping clause encdec = BGEU(imm12 @ imm11 @ imm10_5 @ imm4_1 @ 0b0, rs2, rs1)
  <-> imm12 : bits(1) @ imm10_5 : bits(6) @ rs2 @ rs1 @ 0b111 @ imm4_1 : bits(4) @ imm11 : bits(1) @ 0b1100011
function clause execute(BGEU(imm, rs2, rs1)) = branch(X(rs1) >=_u X(rs2), imm)

/* Loads, with the sign or with zeros above what is read */

union clause ast = LB : (bits(12), regidx, regidx)
mapping clause encdec = LB(imm, rs1, rd) <-> imm @ rs1 @ 0b000 @ rd @ 0b0000011
function clause execute(LB(imm, rs1, rd)) = {
  X(rd) = sign_extend(xlen, mem_read(1, vaddr(rs1, imm)));
  RETIRE_SUCCESS
}

union clause ast = LH : (bits(12), regidx, regidx)
mapping clause encdec = LH(imm, rs1, rd) <-> imm @ rs1 @ 0b001 @ rd @ 0b0000011
function clause execute(LH(imm, rs1, rd)) = {
  X(rd) = sign_extend(xlen, mem_read(2, vaddr(rs1, imm)));
  RETIRE_SUCCESS
}

union clause ast = LW : (bits(12), regidx, regidx)
mapping clause encdec = LW(imm, rs1, rd) <-> imm @ rs1 @ 0b010 @ rd @ 0b0000011
function clause execute(LW(imm, rs1, rd)) = {
  X(rd) = sign_extend(xlen, mem_read(4, vaddr(rs1, imm)));
  RETIRE_SUCCESS
}

union clause ast = LBU : (bits(12), regidx, regidx)
mapping clause encdec = LBU(imm, rs1, rd) <-> imm @ rs1 @ 0b100 @ rd @ 0b0000011
function clause execute(LBU(imm, rs1, rd)) = {
  X(rd) = zero_extend(xlen, mem_read(1, vaddr(rs1, imm)));
  RETIRE_SUCCESS
}

union clause ast = LHU : (bits(12), regidx, regidx)
mapping clause encdec = LHU(imm, rs1, rd) <-> imm @ rs1 @ 0b101 @ rd @ 0b0000011
function clause execute(LHU(imm, rs1, rd)) = {
  X(rd) = zero_extend(xlen, mem_read(2, vaddr(rs1, imm)));
  RETIRE_SUCCESS
}

/* Stores, of the lowest bits of rs2 */

union clause ast = SB : (bits(12), regidx, regidx)
mapping clause encdec = SB(imm11_5 @ imm4_0, rs2, rs1)
  <-> imm11_5 : bits(7) @ rs2 @ rs1 @ 0b000 @ imm4_0 : bits(5) @ 0b0100011
function clause execute(SB(imm, rs2, rs1)) = {
  mem_write(1, vaddr(rs1, imm), truncate(X(rs2), 8));
  RETIRE_SUCCESS
}

union clause ast = SH : (bits(12), regidx, regidx)
mapping clause encdec = SH(imm11_5 @ imm4_0, rs2, rs1)
  <-> imm11_5 : bits(7) @ rs2 @ rs1 @ 0b001 @ imm4_0 : bits(5) @ 0b0100011
function clause execute(SH(imm, rs2, rs1)) = {
  mem_write(2, vaddr(rs1, imm), truncate(X(rs2), 16));
  RETIRE_SUCCESS
}

union clause ast = SW : (bits(12), regidx, regidx)
mapping clause encdec = SW(imm11_5 @ imm4_0, rs2, rs1)
  <-> imm11_5 : bits(7) @ rs2 @ rs1 @ 0b010 @ imm4_0 : bits(5) @ 0b0100011
function clause execute(SW(imm, rs2, rs1)) = {
  mem_write(4, vaddr(rs1, imm), truncate(X(rs2), 32));
  RETIRE_SUCCESS
}

/* A register and a constant. It is extended by its sign, also where what is compared is unsigned. */

union clause ast = ADDI : (bits(12), regidx, regidx)
mapping clause encdec = ADDI(imm, rs1, rd) <-> imm @ rs1 @ 0b000 @ rd @ 0b0010011
function clause execute(ADDI(imm, rs1, rd)) = {
  X(rd) = X(rs1) + sign_extend(xlen, imm);
  RETIRE_SUCCESS
}

union clause ast = SLTI : (bits(12), regidx, regidx)
mapping clause encdec = SLTI(imm, rs1, rd) <-> imm @ rs1 @ 0b010 @ rd @ 0b0010011
function clause execute(SLTI(imm, rs1, rd)) = {
  X(rd) = zero_extend(xlen, bool_to_bits(X(rs1) <_s sign_extend(xlen, imm)));
  RETIRE_SUCCESS
}

union clause ast = SLTIU : (bits(12), regidx, regidx)
mapping clause encdec = SLTIU(imm, rs1, rd) <-> imm @ rs1 @ 0b011 @ rd @ 0b0010011
function clause execute(SLTIU(imm, rs1, rd)) = {
  X(rd) = zero_extend(xlen, bool_to_bits(X(rs1) <_u sign_extend(xlen, imm)));
  RETIRE_SUCCESS
}

union clause ast = XORI : (bits(12), regidx, regidx)
mapping clause encdec = XORI(imm, rs1, rd) <-> imm @ rs1 @ 0b100 @ rd @ 0b0010011
function clause execute(XORI(imm, rs1, rd)) = {
  X(rd) = X(rs1) ^ sign_extend(xlen, imm);
  RETIRE_SUCCESS
}

union clause ast = ORI : (bits(12), regidx, regidx)
mapping clause encdec = ORI(imm, rs1, rd) <-> imm @ rs1 @ 0b110 @ rd @ 0b0010011
function clause execute(ORI(imm, rs1, rd)) = {
  X(rd) = X(rs1) | sign_extend(xlen, imm);
  RETIRE_SUCCESS
}

union clause ast = ANDI : (bits(12), regidx, regidx)
mapping clause encdec = ANDI(imm, rs1, rd) <-> imm @ rs1 @ 0b111 @ rd @ 0b0010011
function clause execute(ANDI(imm, rs1, rd)) = {
  X(rd) = X(rs1) & sign_extend(xlen, imm);
  RETIRE_SUCCESS
}

/* Shifts by a constant */

union clause ast = SLLI : (bits(5), regidx, regidx)
mapping clause encdec = SLLI(shamt, rs1, rd) <-> 0b0000000 @ shamt @ rs1 @ 0b001 @ rd @ 0b0010011
function clause execute(SLLI(shamt, rs1, rd)) = {
  X(rd) = X(rs1) << shamt;
  RETIRE_SUCCESS
}

union clause ast = SRLI : (bits(5), regidx, regidx)
mapping clause encdec = SRLI(shamt, rs1, rd) <-> 0b0000000 @ shamt @ rs1 @ 0b101 @ rd @ 0b0010011
function clause execute(SRLI(shamt, rs1, rd)) = {
  X(rd) = X(rs1) >> shamt;
  RETIRE_SUCCESS
}

union clause ast = SRAI : (bits(5), regidx, regidx)
mapping clause encdec = SRAI(shamt, rs1, rd) <-> 0b0100000 @ shamt @ rs1 @ 0b101 @ rd @ 0b0010011
function clause execute(SRAI(shamt, rs1, rd)) = {
  X(rd) = arith_shiftr_bits(X(rs1), shamt);
  RETIRE_SUCCESS
}

/* Two registers. A shift looks at the lowest bits of rs2 alone. */

union clause ast = ADD : (regidx, regidx, regidx)
mapping clause encdec = ADD(rs2, rs1, rd) <-> 0b0000000 @ rs2 @ rs1 @ 0b000 @ rd @ 0b0110011
function clause execute(ADD(rs2, rs1, rd)) = {
  X(rd) = X(rs1) + X(rs2);
  RETIRE_SUCCESS
}

union clause ast = SUB : (regidx, regidx, regidx)
mapping clause encdec = SUB(rs2, rs1, rd) <-> 0b0100000 @ rs2 @ rs1 @ 0b000 @ rd @ 0b0110011
function clause execute(SUB(rs2, rs1, rd)) = {
  X(rd) = X(rs1) - X(rs2);
  RETIRE_SUCCESS
}

union clause ast = SLL : (regidx, regidx, regidx)
mapping clause encdec = SLL(rs2, rs1, rd) <-> 0b0000000 @ rs2 @ rs1 @ 0b001 @ rd @ 0b0110011
function clause execute(SLL(rs2, rs1, rd)) = {
  X(rd) = X(rs1) << X(rs2)[log2_xlen - 1 .. 0];
  RETIRE_SUCCESS
}

union clause ast = SLT : (regidx, regidx, regidx)
mapping clause encdec = SLT(rs2, rs1, rd) <-> 0b0000000 @ rs2 @ rs1 @ 0b010 @ rd @ 0b0110011
function clause execute(SLT(rs2, rs1, rd)) = {
  X(rd) = zero_extend(xlen, bool_to_bits(X(rs1) <_s X(rs2)));
  RETIRE_SUCCESS
}

union clause ast = SLTU : (regidx, regidx, regidx)
mapping clause encdec = SLTU(rs2, rs1, rd) <-> 0b0000000 @ rs2 @ rs1 @ 0b011 @ rd @ 0b0110011
function clause execute(SLTU(rs2, rs1, rd)) = {
  X(rd) = zero_extend(xlen, bool_to_bits(X(rs1) <_u X(rs2)));
  RETIRE_SUCCESS
}

union clause ast = XOR : (regidx, regidx, regidx)
mapping clause encdec = XOR(rs2, rs1, rd) <-> 0b0000000 @ rs2 @ rs1 @ 0b100 @ rd @ 0b0110011
function clause execute(XOR(rs2, rs1, rd)) = {
  X(rd) = X(rs1) ^ X(rs2);
  RETIRE_SUCCESS
}

union clause ast = SRL : (regidx, regidx, regidx)
mapping clause encdec = SRL(rs2, rs1, rd) <-> 0b0000000 @ rs2 @ rs1 @ 0b101 @ rd @ 0b0110011
function clause execute(SRL(rs2, rs1, rd)) = {
  X(rd) = X(rs1) >> X(rs2)[log2_xlen - 1 .. 0];
  RETIRE_SUCCESS
}

union clause ast = SRA : (regidx, regidx, regidx)
mapping clause encdec = SRA(rs2, rs1, rd) <-> 0b0100000 @ rs2 @ rs1 @ 0b101 @ rd @ 0b0110011
function clause execute(SRA(rs2, rs1, rd)) = {
  X(rd) = arith_shiftr_bits(X(rs1), X(rs2)[log2_xlen - 1 .. 0]);
  RETIRE_SUCCESS
}

union clause ast = OR : (regidx, regidx, regidx)
mapping clause encdec = OR(rs2, rs1, rd) <-> 0b0000000 @ rs2 @ rs1 @ 0b110 @ rd @ 0b0110011
function clause execute(OR(rs2, rs1, rd)) = {
  X(rd) = X(rs1) | X(rs2);
  RETIRE_SUCCESS
}

union clause ast = AND : (regidx, regidx, regidx)
mapping clause encdec = AND(rs2, rs1, rd) <-> 0b0000000 @ rs2 @ rs1 @ 0b111 @ rd @ 0b0110011
function clause execute(AND(rs2, rs1, rd)) = {
  X(rd) = X(rs1) & X(rs2);
  RETIRE_SUCCESS
}

/* FENCE: nothing is left to do, since a step of a hart is whole before another begins. FENCE.TSO and PAUSE are words of
   it, and so are those that the manual reserves. */
union clause ast = FENCE : (bits(4), bits(4), bits(4), regidx, regidx)
mapping clause encdec = FENCE(fm, pred, succ, rs1, rd) <-> fm @ pred @ succ @ rs1 @ 0b000 @ rd @ 0b0001111
function clause execute(FENCE(fm, pred, succ, rs1, rd)) = RETIRE_SUCCESS

/* The bytes from an address on, so many of them, to the console */
val write_console : (xlenbits, xlenbits) -> unit
function write_console(address, count) = {
  let n = unsigned(count);
  foreach (i from 0 to n - 1) console_put(mem_read(1, zero_extend(64, address + i)))
}

/* ECALL: two calls of Linux, by the number in a7. 64 is write: the a2 bytes from a1 on go to the console, whatever
   descriptor a0 holds, and a0 becomes their count. 93 is exit: the hart rests. Of any other a0 becomes -ENOSYS. */
union clause ast = ECALL : unit
mapping clause encdec = ECALL() <-> 0b000000000000 @ 0b00000 @ 0b000 @ 0b00000 @ 0b1110011
function clause execute(ECALL()) = {
  match unsigned(x17) {
    64 => { write_console(x11, x12); x10 = x12; RETIRE_SUCCESS },
    93 => Retire_Rest(),
    _ => { x10 = to_bits(xlen, -38); RETIRE_SUCCESS }
  }
}

/* EBREAK: the run ends, with pc at this instruction */
union clause ast = EBREAK : unit
mapping clause encdec = EBREAK() <-> 0b000000000001 @ 0b00000 @ 0b000 @ 0b00000 @ 0b1110011
function clause execute(EBREAK()) = throw(E_Breakpoint(pc))
