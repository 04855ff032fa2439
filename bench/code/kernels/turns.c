#include "exits.h"
int left[16];
int total;
int done;

int first(int from) {
  int u = from;
  int tries = 0;
  while (tries < 16) {
    u = u % 16 + 1;
    if ((unsigned) (u - 1) >= 16) bounds();
    if (left[u - 1] > 0) tries = 100; else tries = tries + 1;
  }
  if (tries < 100) u = 0;
  return u;
}

int dispatch(int cause, int data, int user) {
  int i = 0;
  int said;
  int next;
  if (cause == 0) {
    while (i < 16) {
      if ((unsigned) i >= 16) bounds();
      left[i] = 3 + i % 3;
      i = i + 1;
    }
  } else {
    said = vm_get(user, 4);
    total = total + said;
    if ((unsigned) (user - 1) >= 16) bounds();
    left[user - 1] = left[user - 1] - 1;
    if (left[user - 1] == 0) done = done + 1;
  }
  next = first(user);
  return next;
}
