int fib(int n) {
  int a = n;
  int b;
  if (n > 1) {
    a = fib(n - 1);
    b = fib(n - 2);
    a = a + b;
  }
  return a;
}

int dispatch(int cause, int data, int user) {
  int r;
  r = fib(data);
  return r;
}
