#include "session.h"

#include <picosat/picosat.h>

static PicoSAT *solver;

static PicoSAT *get(void) {
  if (!solver) solver = picosat_init();
  return solver;
}

int fresh(void) { return picosat_inc_max_var(get()); }
void add(int literal) { picosat_add(get(), literal); }
void assume(int literal) { picosat_assume(get(), literal); }
int is_satisfiable(void) { return picosat_sat(get(), -1) == PICOSAT_SATISFIABLE; }
