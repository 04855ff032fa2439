#include "exits.h"
int from[64];
int to[64];

int copy(int (*a)[64], int (*b)[64], int n) {
  int i = 0;
  while (i < n) {
    if (!a || !b) null_use();
    if ((unsigned) i >= 64) bounds();
    (*b)[i] = (*a)[i];
    i = i + 1;
  }
  return 1;
}

int same(int (*a)[64], int (*b)[64], int n) {
  int i = 0;
  int is = 1;
  while (i < n && is) {
    if (!a || !b) null_use();
    if ((unsigned) i >= 64) bounds();
    is = (*a)[i] == (*b)[i];
    i = i + 1;
  }
  return is;
}

int dispatch(int cause, int data, int user) {
  int i;
  int turn = 0;
  int found = 0;
  int ok;
  while (turn < 4) {
    i = 0;
    while (i < 64) {
      if ((unsigned) i >= 64) bounds();
      from[i] = i * turn + data;
      i = i + 1;
    }
    ok = copy(&from, &to, 64);
    ok = same(&from, &to, 64);
    if (ok) found = found + 1;
    turn = turn + 1;
  }
  return found;
}
