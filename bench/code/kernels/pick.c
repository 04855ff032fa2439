#include "exits.h"
struct user { int runs; int turns; };
struct user users[8];
int last;
int ticks;

int pick(int from) {
  int i = 0;
  int u = from;
  int found = 0;
  while (i < 8 && found == 0) {
    u = u + 1;
    if (u > 8) u = 1;
    if ((unsigned) (u - 1) >= 8) bounds();
    if (users[u - 1].runs) found = u;
    i = i + 1;
  }
  return found;
}

int dispatch(int cause, int data, int user) {
  int next;
  int i = 0;
  if (cause == 0) {
    while (i < 8) {
      if ((unsigned) i >= 8) bounds();
      users[i].runs = 1;
      i = i + 1;
    }
  } else {
    if ((unsigned) (user - 1) >= 8) bounds();
    users[user - 1].turns = users[user - 1].turns + 1;
    if (cause == 3 || cause == 8) users[user - 1].runs = 0;
    ticks = ticks + 1;
  }
  last = user;
  next = pick(user);
  return next;
}
