#include "exits.h"
struct node { int value; struct node *next; };
struct node *head;
struct node room[64];
int used;

struct node *new_node(void) {
  struct node *n = 0;
  if (used < 64) {
    n = &room[used];
    used = used + 1;
  }
  return n;
}

int insert(int value) {
  struct node *n;
  struct node *before = 0;
  struct node *at;
  n = new_node();
  if (!n) null_use();
  n->value = value;
  at = head;
  while (at != 0 && at->value < value) { before = at; at = at->next; }
  n->next = at;
  if (before == 0) head = n; else before->next = n;
  return 0;
}

int dispatch(int cause, int data, int user) {
  int i = 0;
  int seed = data;
  int ignored;
  int sum = 0;
  struct node *at;
  while (i < 50) {
    seed = (seed * 1103 + 12345) % 65536;
    ignored = insert(seed);
    i = i + 1;
  }
  at = head;
  while (at != 0) { sum = sum * 3 + at->value; at = at->next; }
  return sum;
}
