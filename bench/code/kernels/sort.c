#include "exits.h"
int a[50];

int dispatch(int cause, int data, int user) {
  int i = 0;
  int j;
  int kept;
  int seed = data;
  while (i < 50) {
    seed = (seed * 1103 + 12345) % 65536;
    if ((unsigned) i >= 50) bounds();
    a[i] = seed;
    i = i + 1;
  }
  i = 0;
  while (i < 49) {
    j = 0;
    while (j < 49 - i) {
      if ((unsigned) j >= 50) bounds();
      if ((unsigned) (j + 1) >= 50) bounds();
      if (a[j] > a[j + 1]) {
        kept = a[j];
        a[j] = a[j + 1];
        a[j + 1] = kept;
      }
      j = j + 1;
    }
    i = i + 1;
  }
  return a[10] * 7 + a[40];
}
