/* The boards of n queens with BuDDy, by the same steps as crates/conditions/src/tests/queens.rt. */
#include <bdd.h>
#include <stdio.h>
#include <stdlib.h>

static int collections;

static void count_collection(int before, bddGbcStat *stat) {
  (void)stat;
  if (before) collections++;
}

static int reaches(int n, int a, int b) {
  int rows = abs(a / n - b / n), columns = abs(a % n - b % n);
  return rows == 0 || columns == 0 || rows == columns;
}

/* Puts the second in the place of the first, of which it is made. */
static BDD kept(BDD old, BDD made) {
  bdd_addref(made);
  bdd_delref(old);
  return made;
}

static BDD queens(int n) {
  BDD board = bddtrue;
  for (int row = 0; row < n; row++) {
    BDD some = bddfalse;
    for (int column = 0; column < n; column++) some = kept(some, bdd_or(some, bdd_ithvar(row * n + column)));
    board = kept(board, bdd_and(board, some));
  }
  for (int square = 0; square < n * n; square++) {
    BDD left = bddtrue;
    for (int other = 0; other < n * n; other++)
      if (other != square && reaches(n, square, other)) left = kept(left, bdd_apply(left, bdd_ithvar(other), bddop_diff));
    BDD empty = bdd_addref(bdd_apply(bddtrue, bdd_ithvar(square), bddop_diff));
    BDD safe = bdd_addref(bdd_or(empty, left));
    board = kept(board, bdd_and(board, safe));
  }
  return board;
}

int main(int count, char **words) {
  if (count != 4) return 2;
  int n = atoi(words[1]), nodes = atoi(words[2]), cache = atoi(words[3]);
  if (bdd_init(nodes, cache) != 0) return 1;
  bdd_setvarnum(n * n);
  bdd_disable_reorder();
  bdd_gbc_hook(count_collection);
  BDD board = queens(n);
  bddStat stat;
  bdd_stats(&stat);
  printf("made: %d, %ld nodes, %.0f boards, %d collections\n", board != bddfalse, stat.produced, bdd_satcount(board), collections);
  return 0;
}
