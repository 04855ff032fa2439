#include "exits.h"
int gcd(int a, int b) {
  int kept;
  while (b != 0) {
    if (b == 0) division();
    kept = a % b;
    a = b;
    b = kept;
  }
  return a;
}

int dispatch(int cause, int data, int user) {
  int i = 0;
  int r;
  int sum = 0;
  while (i < 50) {
    r = gcd(data * i + 1071, 462 + i);
    sum = sum + r;
    i = i + 1;
  }
  return sum;
}
