/* What the instructions of RV64 share: types, registers, addresses, and where the parts of the instruction set begin.
   With rv32i.sail, rv64i.sail and rv32_end.sail this is RV64I of the RISC-V unprivileged manual; with rv32m.sail,
   rv64m.sail, rv32a.sail and rv64a.sail before the last one it is RV64IMA. It differs from rv32_begin.sail in xlen and
   log2_xlen alone. */

default Order dec

/* The machine that an image's header has to name, EM_RISCV */
let elf_machine = 243

type xlen : Int = 64
type log2_xlen : Int = 6
let xlen = sizeof(xlen)
let log2_xlen = sizeof(log2_xlen)

type xlenbits = bits(xlen)
type regidx = bits(5)

/* The manual's exceptions. Nothing handles them, so they end the run. */
union exception = {
  E_Fetch_Addr_Align : xlenbits,
  E_Illegal_Instr : bits(32),
  E_Breakpoint : xlenbits,
  E_Load_Addr_Align : bits(64),
  E_SAMO_Addr_Align : bits(64)
}

/* What an instruction comes to: its hart goes on behind it, or at another address, or rests. */
union Retired = {
  Retire_Success : unit,
  Retire_Jump : xlenbits,
  Retire_Rest : unit
}

let RETIRE_SUCCESS = Retire_Success()

/* The registers. x0 is none: it reads as zero, and what is written to it is lost. */

register pc : xlenbits
register x1 : xlenbits
register x2 : xlenbits
register x3 : xlenbits
register x4 : xlenbits
register x5 : xlenbits
register x6 : xlenbits
register x7 : xlenbits
register x8 : xlenbits
register x9 : xlenbits
register x10 : xlenbits
register x11 : xlenbits
register x12 : xlenbits
register x13 : xlenbits
register x14 : xlenbits
register x15 : xlenbits
register x16 : xlenbits
register x17 : xlenbits
register x18 : xlenbits
register x19 : xlenbits
register x20 : xlenbits
register x21 : xlenbits
register x22 : xlenbits
register x23 : xlenbits
register x24 : xlenbits
register x25 : xlenbits
register x26 : xlenbits
register x27 : xlenbits
register x28 : xlenbits
register x29 : xlenbits
register x30 : xlenbits
register x31 : xlenbits

val rX : regidx -> xlenbits
function rX(r) = match r {
  0b00000 => zeros(xlen),
  0b00001 => x1,
  0b00010 => x2,
  0b00011 => x3,
  0b00100 => x4,
  0b00101 => x5,
  0b00110 => x6,
  0b00111 => x7,
  0b01000 => x8,
  0b01001 => x9,
  0b01010 => x10,
  0b01011 => x11,
  0b01100 => x12,
  0b01101 => x13,
  0b01110 => x14,
  0b01111 => x15,
  0b10000 => x16,
  0b10001 => x17,
  0b10010 => x18,
  0b10011 => x19,
  0b10100 => x20,
  0b10101 => x21,
  0b10110 => x22,
  0b10111 => x23,
  0b11000 => x24,
  0b11001 => x25,
  0b11010 => x26,
  0b11011 => x27,
  0b11100 => x28,
  0b11101 => x29,
  0b11110 => x30,
  0b11111 => x31
}

val wX : (regidx, xlenbits) -> unit
function wX(r, v) = match r {
  0b00000 => (),
  0b00001 => x1 = v,
  0b00010 => x2 = v,
  0b00011 => x3 = v,
  0b00100 => x4 = v,
  0b00101 => x5 = v,
  0b00110 => x6 = v,
  0b00111 => x7 = v,
  0b01000 => x8 = v,
  0b01001 => x9 = v,
  0b01010 => x10 = v,
  0b01011 => x11 = v,
  0b01100 => x12 = v,
  0b01101 => x13 = v,
  0b01110 => x14 = v,
  0b01111 => x15 = v,
  0b10000 => x16 = v,
  0b10001 => x17 = v,
  0b10010 => x18 = v,
  0b10011 => x19 = v,
  0b10100 => x20 = v,
  0b10101 => x21 = v,
  0b10110 => x22 = v,
  0b10111 => x23 = v,
  0b11000 => x24 = v,
  0b11001 => x25 = v,
  0b11010 => x26 = v,
  0b11011 => x27 = v,
  0b11100 => x28 = v,
  0b11101 => x29 = v,
  0b11110 => x30 = v,
  0b11111 => x31 = v
}

/* X(r) reads a register, and X(r) = v writes it. */
overload X = {rX, wX}

/* Addresses. Those of memory have 64 bits. A run ends where bytes are read or written that aren't all in RAM. */

/* The address of a load or a store. It need not be aligned. */
val vaddr : (regidx, bits(12)) -> bits(64)
function vaddr(rs1, imm) = zero_extend(64, X(rs1) + sign_extend(xlen, imm))

/* The target of a jump or of a branch that is taken. It has to be a multiple of four. */
val target : xlenbits -> xlenbits
function target(address) = {
  if address[1 .. 0] != 0b00 then throw(E_Fetch_Addr_Align(address));
  address
}

/* A branch by imm where its condition is true. */
val branch : (bool, bits(13)) -> Retired
function branch(taken, imm) =
  if taken then Retire_Jump(target(pc + sign_extend(xlen, imm))) else RETIRE_SUCCESS

/* Each instruction has a clause of all three, in the files between this one and the last. */

scattered union ast

val encdec : ast <-> bits(32)
scattered mapping encdec

val execute : ast -> Retired
scattered function execute
