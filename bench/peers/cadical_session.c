#include "session.h"

#include <ccadical.h>

static CCaDiCaL *solver;
static int variables;

static CCaDiCaL *get(void) {
  if (!solver) solver = ccadical_init();
  return solver;
}

int fresh(void) { return ++variables; }
void add(int literal) { ccadical_add(get(), literal); }
void assume(int literal) { ccadical_assume(get(), literal); }
int is_satisfiable(void) { return ccadical_solve(get()) == 10; }
