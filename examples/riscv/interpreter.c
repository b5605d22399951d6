/* A small stack machine, with two programs: factorials by a loop, and primes by trial division */
#include "system.h"

enum { PUSH, LOAD, STORE, ADD, MUL, MOD, LESS, UNLESS, JUMP, PRINT, END };

static const i32 factorials[] = {
    /*  0 */ PUSH, 1, STORE, 0, PUSH, 1, STORE, 1,
    /*  8 */ LOAD, 1, PUSH, 13, LESS, UNLESS, 34,
    /* 15 */ LOAD, 0, LOAD, 1, MUL, STORE, 0, LOAD, 0, PRINT,
    /* 25 */ LOAD, 1, PUSH, 1, ADD, STORE, 1, JUMP, 8,
    /* 34 */ END};

static const i32 primes[] = {
    /*  0 */ PUSH, 2, STORE, 0,
    /*  4 */ LOAD, 0, PUSH, 60, LESS, UNLESS, 50,
    /* 11 */ PUSH, 2, STORE, 1,
    /* 15 */ LOAD, 1, LOAD, 0, LESS, UNLESS, 38,
    /* 22 */ LOAD, 0, LOAD, 1, MOD, UNLESS, 41,
    /* 29 */ LOAD, 1, PUSH, 1, ADD, STORE, 1, JUMP, 15,
    /* 38 */ LOAD, 0, PRINT,
    /* 41 */ LOAD, 0, PUSH, 1, ADD, STORE, 0, JUMP, 4,
    /* 50 */ END};

static void interpret(const i32 *program) {
  i32 cells[2], stack[8];
  i32 *top = stack;
  const i32 *at = program;
  for (;;) {
    switch (*at++) {
      case PUSH: *top++ = *at++; break;
      case LOAD: *top++ = cells[*at++]; break;
      case STORE: cells[*at++] = *--top; break;
      case ADD:
        top--;
        top[-1] += top[0];
        break;
      case MUL:
        top--;
        top[-1] *= top[0];
        break;
      case MOD:
        top--;
        top[-1] %= top[0];
        break;
      case LESS:
        top--;
        top[-1] = top[-1] < top[0];
        break;
      case UNLESS: at = *--top ? at + 1 : program + *at; break;
      case JUMP: at = program + *at; break;
      case PRINT: decimal(*--top); break;
      default: return;
    }
  }
}

int main(void) {
  interpret(factorials);
  interpret(primes);
  return 0;
}
