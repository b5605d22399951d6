register PC : bits(64)
register R : vector(16, bits(16))

val reset : (range(0, 7), bits(64)) -> unit
function reset(h, e) = { PC = e }

val step : unit -> bool
function step() = {
  let word = mem_read(2, PC);
  let i = unsigned(word[12 .. 8]);
  assert(i < 16, "register");
  R[i] = zero_extend(16, word[7 .. 0]);
  PC = PC + 2;
  true
}
