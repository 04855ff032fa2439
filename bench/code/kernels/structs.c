#include "exits.h"
struct row { int key; int cells[3]; int used; };
struct row rows[30];

int dispatch(int cause, int data, int user) {
  int i;
  int j;
  int sum = 0;
  int turn = 0;
  while (turn < 10) {
    i = 0;
    while (i < 30) {
      if ((unsigned) i >= 30) bounds();
      rows[i].key = i + turn;
      rows[i].used = i % 2 == 0;
      j = 0;
      while (j < 3) {
        if ((unsigned) j >= 3) bounds();
        rows[i].cells[j] = rows[i].key * j;
        j = j + 1;
      }
      i = i + 1;
    }
    i = 0;
    while (i < 30) {
      if ((unsigned) i >= 30) bounds();
      if (rows[i].used) sum = sum + rows[i].cells[2] - rows[i].cells[1];
      i = i + 1;
    }
    turn = turn + 1;
  }
  return sum;
}
