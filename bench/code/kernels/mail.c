#include "exits.h"
struct box { int first; int count; int words[4]; };
struct box boxes[4];
int sent;

int put(struct box *b, int word) {
  int fits;
  if (!b) null_use();
  fits = b->count < 4;
  if (fits) {
    if ((unsigned) ((b->first + b->count) % 4) >= 4) bounds();
    b->words[(b->first + b->count) % 4] = word;
    b->count = b->count + 1;
  }
  return fits;
}

int take(struct box *b) {
  int word = -1;
  if (!b) null_use();
  if (b->count > 0) {
    if ((unsigned) b->first >= 4) bounds();
    word = b->words[b->first];
    b->first = (b->first + 1) % 4;
    b->count = b->count - 1;
  }
  return word;
}

int dispatch(int cause, int data, int user) {
  int what;
  int to;
  int word;
  int ok;
  if (cause == 9) {
    what = vm_get(user, 4);
    if (what == 1) {
      to = vm_get(user, 5);
      word = vm_get(user, 6);
      ok = to >= 1 && to <= 4;
      if (ok) {
        if ((unsigned) (to - 1) >= 4) bounds();
        ok = put(&boxes[to - 1], word);
      }
      word = 0;
      if (ok) { word = 1; sent = sent + 1; }
    } else {
      if ((unsigned) (user - 1) >= 4) bounds();
      word = take(&boxes[user - 1]);
    }
    ok = vm_set(user, 2, word);
  }
  return user % 4 + 1;
}
