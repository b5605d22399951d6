/* Where the parts of the instruction set end, and what a step of a hart is */

/* A word that no clause above has is no instruction, and ends the run, with pc at it. */
union clause ast = ILLEGAL : bits(32)
mapping clause encdec = ILLEGAL(word) <-> word
function clause execute(ILLEGAL(word)) = throw(E_Illegal_Instr(word))

end ast
end encdec
end execute

/* A hart begins at the program's entry, with its number in a0. */
val reset : (range(0, 7), bits(64)) -> unit
function reset(h, e) = {
  pc = target(truncate(e, xlen));
  x10 = to_bits(xlen, h)
}

/* One instruction; false where the hart rests, with pc at that instruction. */
val step : unit -> bool
function step() = match execute(encdec(mem_read(4, zero_extend(64, pc)))) {
  Retire_Success() => { pc = pc + 4; true },
  Retire_Jump(address) => { pc = address; true },
  Retire_Rest() => false
}
