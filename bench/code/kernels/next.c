int dispatch(int cause, int data, int user) {
  int next = user;
  if (cause == 0) next = 1;
  return next;
}
