/* What C0 does by itself, written out in C: faults leave by a call that doesn't come back, and the primitives stand elsewhere. */
void null_use(void);
void bounds(void);
void division(void);
int vm_get(int user, int number);
int vm_set(int user, int number, int value);
