// Reads the session lines that generate.py writes from standard input, and drives a peer's library by them: `vars`, `add`, `guard`,
// `under`, `drop`, `assume`, `solve`, `wait` and `bye`. A guard is a fresh variable of the peer's, and a dropped one is made false, as users
// of such libraries do. Prints `sat` or `unsat` for each `wait`.
#include <stdio.h>
#include <stdlib.h>
#include <string.h>

// What a peer offers: a fresh variable, a clause literal by literal with 0 behind it, an assumption for the next solve, and the solve.
int fresh(void);
void add(int literal);
void assume(int literal);
int is_satisfiable(void);

enum { MOST = 1 << 24 };
static int peer_of[MOST];  // the peer's variable for each of the session's, 0 for none yet
static int freed[MOST], freed_count, top;

static int of(int literal) {
  int variable = abs(literal);
  if (variable > top) top = variable;
  if (!peer_of[variable]) peer_of[variable] = fresh();
  return literal < 0 ? -peer_of[variable] : peer_of[variable];
}

// Calls `take` with each literal up to the 0.
static void each(void (*take)(int)) {
  for (char *word; (word = strtok(NULL, " "));) {
    int literal = atoi(word);
    if (!literal) break;
    take(of(literal));
  }
}

static void new_guard(void) {
  int guard = freed_count ? freed[--freed_count] : top + 1;
  peer_of[guard] = 0;
  of(guard);
}

static void drop(int guard) {
  add(-of(guard));
  add(0);
  freed[freed_count++] = guard;
}

int main(void) {
  static char line[1 << 22];
  int satisfiable = 0;
  while (fgets(line, sizeof line, stdin)) {
    line[strcspn(line, "\n")] = 0;
    char *word = strtok(line, " ");
    if (!word) continue;
    if (!strcmp(word, "add")) {
      each(add);
      add(0);
    } else if (!strcmp(word, "assume")) {
      each(assume);
    } else if (!strcmp(word, "guard")) {
      new_guard();
    } else if (!strcmp(word, "under")) {
      add(-of(atoi(strtok(NULL, " "))));
      each(add);
      add(0);
    } else if (!strcmp(word, "drop")) {
      drop(atoi(strtok(NULL, " ")));
    } else if (!strcmp(word, "vars")) {
      for (int v = 1, n = atoi(strtok(NULL, " ")); v <= n; v++) of(v);
    } else if (!strcmp(word, "solve")) {
      satisfiable = is_satisfiable();
    } else if (!strcmp(word, "wait")) {
      puts(satisfiable ? "sat" : "unsat");
    }
  }
  return 0;
}
