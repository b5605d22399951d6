/* A calculator in another style than the register machines: its stack is a list, which a function hands on, and no register. A step reads
   one line, in which operators stand behind their operands, and writes the line's value. The program is its text, as in

        12 30+ 2*

   A blank puts a zero on the stack, a digit goes behind the number on top, and an operator takes two numbers and puts one. So a line begins
   with a blank. The value of a line is the one number that it leaves. */

default Order dec

register PC : bits(64)

/* What ends a run: an operator without operands, or a line that leaves another count of numbers than one, with the address; and a character
   that means nothing */
union exception = {
  E_Stack : bits(64),
  E_Character : bits(8)
}

/* Two numbers of the top in one, the upper one on the right */
val operate : (bits(8), bits(32), bits(32)) -> bits(32)
function operate(sign, left, right) = match sign {
  0x2a => left * right,
  0x2b => left + right,
  0x2d => left - right,
  character => throw(E_Character(character))
}

/* The stack behind a character that is neither a blank nor the end of a line */
val changed : (bits(64), bits(8), list(bits(32))) -> list(bits(32))
function changed(address, character, stack) = match stack {
  top :: rest => match character {
    0x3 @ (digit : bits(4)) if digit <_u 0xa => (top * 0x0000000a + zero_extend(32, digit)) :: rest,
    sign => match rest {
      under :: others => operate(sign, under, top) :: others,
      _ => throw(E_Stack(address))
    }
  },
  _ => throw(E_Stack(address))
}

/* The address behind the line that goes on at an address with a stack, and has at most so many characters more; its value is written. */
val line : (bits(64), list(bits(32)), range(0, 80)) -> bits(64)
termination_measure line(address, stack, left) = left
function line(address, stack, left) = {
  assert(left > 0, "a line of more than 80 characters");
  let character = mem_read(1, address);
  match character {
    0x0a => match stack {
      [|value|] => { print_endline(dec_str(signed(value))); address + 1 },
      _ => throw(E_Stack(address))
    },
    0x20 => line(address + 1, 0x00000000 :: stack, left - 1),
    _ => line(address + 1, changed(address, character, stack), left - 1)
  }
}

val reset : (range(0, 7), bits(64)) -> unit
function reset(h, e) = { PC = e }

/* A line, unless the text is at its end */
val step : unit -> bool
function step() = {
  if mem_read(1, PC) == 0x00 then return false;
  PC = line(PC, [||], 80);
  true
}
