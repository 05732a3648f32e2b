// Questions to CaDiCaL: to a fresh solver, with the decisions as units, and to one that is kept, with the decisions as assumptions.
#include <cadical.hpp>
#include <cstddef>

// A solver's clauses are DIMACS literals, each clause closed by 0.
static void begin(CaDiCaL::Solver &solver, const int *clauses, size_t n) {
  solver.configure("plain");
  solver.set("lucky", 0);
  for (size_t i = 0; i < n; i++) solver.add(clauses[i]);
}

// A fresh solver: clauses and units, propagated with no decision of its own. Answers 20 for a conflict, else 10 or 0.
// `fixed` gets, for variable v at v - 1: 1 positive, -1 negative, 0 open; it may be null.
extern "C" int cadical_ask(const int *clauses, size_t n, const int *units, size_t m, int *fixed, size_t variables) {
  CaDiCaL::Solver solver;
  begin(solver, clauses, n);
  for (size_t i = 0; i < m; i++) {
    solver.add(units[i]);
    solver.add(0);
  }
  solver.limit("decisions", 0);
  int answer = solver.solve();
  if (fixed && answer != 20)
    for (size_t v = 0; v < variables; v++) fixed[v] = solver.fixed((int)v + 1);
  return answer;
}

extern "C" CaDiCaL::Solver *cadical_keep(const int *clauses, size_t n) {
  auto *solver = new CaDiCaL::Solver;
  begin(*solver, clauses, n);
  return solver;
}

// A kept solver: the assumptions, propagated. It looks at its limit of decisions before it takes an assumption, so that a limit of 0
// propagates none; the limit is 1, and one decision of its own may follow the assumptions.
extern "C" int cadical_ask_kept(CaDiCaL::Solver *solver, const int *assumptions, size_t m) {
  for (size_t i = 0; i < m; i++) solver->assume(assumptions[i]);
  solver->limit("decisions", 1);
  return solver->solve();
}

extern "C" void cadical_drop(CaDiCaL::Solver *solver) { delete solver; }

extern "C" const char *cadical_signature() { return CaDiCaL::Solver::signature(); }
