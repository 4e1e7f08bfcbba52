// A small CDCL solver with array watches, to time the engine beside. Reads DIMACS from standard input; decides the
// atoms in order, or with the word 'active' the one that was met most of late, negative first; keeps every learned
// clause, and never restarts.
#include <cstdio>
#include <cstdlib>
#include <cstring>
#include <vector>
using namespace std;
typedef vector<int> Ints;
static vector<Ints> clauses, watching;
static Ints value, level, reason, trail, starts, seen;
static vector<double> activity;
static double bump = 1;
static size_t head = 0;
static int index_of(int l) { return l > 0 ? 2 * l : -2 * l + 1; }
static int value_of(int l) { return l > 0 ? value[l] : -value[-l]; }
static void room(int n) {
  if ((int)value.size() > n) return;
  value.resize(n + 1); level.resize(n + 1); reason.resize(n + 1, -1); seen.resize(n + 1); activity.resize(n + 1);
  watching.resize(2 * n + 2);
}
static void assign(int l, int why) {
  int a = abs(l);
  value[a] = l > 0 ? 1 : -1; level[a] = starts.size(); reason[a] = why; trail.push_back(l);
}
static void back(int to) {
  if ((int)starts.size() <= to) return;
  for (size_t i = trail.size(); i-- > (size_t)starts[to];) value[abs(trail[i])] = 0;
  trail.resize(starts[to]); starts.resize(to); head = trail.size();
}
static bool add(Ints c) { // at level 0, or a learned clause whose first literal is asserted
  for (int l : c) room(abs(l));
  if (c.empty()) return false;
  clauses.push_back(c);
  int id = clauses.size() - 1;
  if (c.size() > 1) { watching[index_of(c[0])].push_back(id); watching[index_of(c[1])].push_back(id); }
  else if (value_of(c[0]) < 0) return false;
  else if (!value_of(c[0])) assign(c[0], id);
  return true;
}
static int propagate() {
  while (head < trail.size()) {
    int off = -trail[head++];
    Ints &ws = watching[index_of(off)];
    size_t kept = 0, i = 0;
    for (; i < ws.size(); i++) {
      int id = ws[i];
      Ints &c = clauses[id];
      if (c[0] == off) swap(c[0], c[1]);
      ws[kept++] = id;
      if (value_of(c[0]) > 0) continue;
      size_t k = 2;
      while (k < c.size() && value_of(c[k]) < 0) k++;
      if (k < c.size()) { swap(c[1], c[k]); watching[index_of(c[1])].push_back(id); kept--; continue; }
      if (value_of(c[0]) < 0) { while (++i < ws.size()) ws[kept++] = ws[i]; ws.resize(kept); return id; }
      assign(c[0], id);
    }
    ws.resize(kept);
  }
  return -1;
}
static Ints learn(int conflict, int &to) { // the first unique implication point
  Ints c(1, 0), met;
  int open = 0, l = 0;
  size_t at = trail.size();
  do {
    for (int m : clauses[conflict]) {
      int a = abs(m);
      if (m == l || seen[a] || !level[a]) continue;
      seen[a] = 1; met.push_back(a);
      if (level[a] == (int)starts.size()) open++; else c.push_back(m);
    }
    do l = trail[--at]; while (!seen[abs(l)]);
    conflict = reason[abs(l)];
  } while (--open);
  c[0] = -l; to = 0;
  for (size_t i = 1; i < c.size(); i++) if (level[abs(c[i])] > to) { to = level[abs(c[i])]; swap(c[1], c[i]); }
  for (int a : met) { seen[a] = 0; activity[a] += bump; }
  if ((bump *= 1.05) > 1e200) { for (double &x : activity) x *= 1e-200; bump *= 1e-200; }
  return c;
}
int main(int argc, char **argv) {
  bool sat = true, active = argc > 1 && !strcmp(argv[1], "active");
  long conflicts = 0;
  char word[64];
  Ints c;
  while (scanf("%63s", word) == 1) {
    if (!strcmp(word, "c") || !strcmp(word, "p")) { int x; while ((x = getchar()) != '\n' && x != EOF) {} continue; }
    int l = atoi(word);
    if (l) c.push_back(l); else { sat = add(c) && sat; c.clear(); }
  }
  int next = 1;
  while (sat) {
    int conflict = propagate(), to;
    if (conflict >= 0) {
      conflicts++;
      if (starts.empty()) { sat = false; break; }
      Ints learned = learn(conflict, to);
      back(to); next = 1;
      add(learned);
      if (learned.size() > 1) assign(learned[0], clauses.size() - 1);
      continue;
    }
    while (next < (int)value.size() && value[next]) next++;
    if (next == (int)value.size()) break;
    int atom = next;
    if (active) for (int a = next; a < (int)value.size(); a++) if (!value[a] && activity[a] > activity[atom]) atom = a;
    starts.push_back(trail.size());
    assign(-atom, -1);
  }
  printf("%s %ld\n", sat ? "sat" : "unsat", conflicts);
}
