#include "exits.h"
int a[100];

int dispatch(int cause, int data, int user) {
  int i = 0;
  int sum = 0;
  while (i < 100) {
    if ((unsigned) i >= 100) bounds();
    a[i] = i * 3 + data;
    i = i + 1;
  }
  i = 0;
  while (i < 100) {
    if ((unsigned) i >= 100) bounds();
    sum = sum + a[i];
    i = i + 1;
  }
  return sum;
}
