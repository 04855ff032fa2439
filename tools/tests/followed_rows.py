"""Sources with a typical mistake, each with the number of its refusal, the sentence that names it, and the source as it is when the advice is followed.

`@` stands before the first byte of the fault and `~` behind its last one, where its span counts; neither is part of the source. DISPATCH is added behind.
What the sentence has between quotes behind `write` stands in the source that follows it.
"""

STRUCT = 'struct s { int a; struct s* next; }; '

# (the source, the refusal, a part of the sentence, the source that follows the advice)
ROWS = [
    ('int w; int f() { w = @vm_set(1, 2, 3)~; return 0; }', 22, "'vm_set' gives a bool, and w is an int: declare 'bool ok;', and write 'ok = vm_set(..);'",
     'int w; int f() { bool ok; ok = vm_set(1, 2, 3); return 0; }'),
    ('bool b; int f() { b = @vm_get(1, 2)~; return 0; }', 22, "'vm_get' gives an int, and b is a bool", 'int b; int f() { b = vm_get(1, 2); return 0; }'),
    ('int ticks; int f() { if (@!ticks~) { } return 0; }', 22, "'!' takes bools, and 'ticks' is an int: write 'ticks == 0'", 'int ticks; int f() { if (ticks == 0) { } return 0; }'),
    ('int ticks; int f() { if (@!(ticks % 2)~) { } return 0; }', 22, "write 'ticks % 2 == 0'", 'int ticks; int f() { if (ticks % 2 == 0) { } return 0; }'),
    ('int f(int cause, int data) { if (@cause && data~) { } return 0; }', 22, "write 'cause != 0 && data != 0'", 'int f(int cause, int data) { if (cause != 0 && data != 0) { } return 0; }'),
    ('int f(int cause, bool b) { if (@b || cause % 2~) { } return 0; }', 22, "write 'b || cause % 2 != 0'", 'int f(int cause, bool b) { if (b || cause % 2 != 0) { } return 0; }'),
    ('int f() { while (@1~) { } return 0; }', 22, "a condition is a bool, and '1' is an int: write 'true'", 'int f() { while (true) { } return 0; }'),
    ('int x; int f() { if (@x~) { } return 0; }', 22, "'x' is an int: write 'x != 0'", 'int x; int f() { if (x != 0) { } return 0; }'),
    ('int x; int f() { if (@x - 1~) { } return 0; }', 22, "write 'x - 1 != 0'", 'int x; int f() { if (x - 1 != 0) { } return 0; }'),
    (STRUCT + 'struct s* p; int f() { while (@p~) { p = p->next; } return 0; }', 22, "'p' is a struct s*: write 'p != null'", STRUCT + 'struct s* p; int f() { while (p != null) { p = p->next; } return 0; }'),
    (STRUCT + 'struct s* h; int f() { return @h.a~; }', 22, "h is a struct s*, a pointer: write 'h->a'", STRUCT + 'struct s* h; int f() { return h->a; }'),
    (STRUCT + 'struct s h; int f() { return @h->a~; }', 22, "h is a struct s and no pointer: write 'h.a'", STRUCT + 'struct s h; int f() { return h.a; }'),
    ('int[4] slots; int f() { return @slots[1][2]~; }', 22, "slots[1] is an int and no array: 'slots' has one index", 'int[4][3] slots; int f() { return slots[1][2]; }'),
    ('int[4]* p; int f() { return @p[1]~; }', 22, "p is an int[4]*: write '(*p)[1]'", 'int[4]* p; int f() { return (*p)[1]; }'),
    ('int[4] slots; int f() { @slots~ = slots; return 0; }', 22, 'slots is an int[4], and only an int, a bool or a pointer is assigned: assign each element', 'int[4] slots; int f() { slots[0] = slots[1]; return 0; }'),
    (STRUCT + 'struct s g; struct s h; int f() { @g~ = h; return 0; }', 22, 'assign each field', STRUCT + 'struct s g; struct s h; int f() { g.a = h.a; return 0; }'),
    ('bool b; int f() { b = @1~; return 0; }', 22, "b is a bool, and '1' is an int: write 'b = true;'", 'bool b; int f() { b = true; return 0; }'),
    ('bool b; int x; int f() { b = @x~; return 0; }', 22, "write 'b = x != 0;'", 'bool b; int x; int f() { b = x != 0; return 0; }'),
    ('int x; int f() { x = @true~; return 0; }', 22, "x is an int, and 'true' is a bool: write 'x = 1;'", 'int x; int f() { x = 1; return 0; }'),
    ('int x; int f() { x = @x == 2~; return 0; }', 22, "write 'if (x == 2) { x = 1; } else { x = 0; }'", 'int x; int f() { if (x == 2) { x = 1; } else { x = 0; } return 0; }'),
    ('int f() { bool ok; ok = vm_set(1, @true~, 3); return 0; }', 22, "argument 2 of 'vm_set' is an int, and 'true' is a bool: write '1'", 'int f() { bool ok; ok = vm_set(1, 1, 3); return 0; }'),
    ('int g(bool b) { return 0; } int f() { int x; x = g(@0~); return 0; }', 22, "argument 1 of 'g', 'b', is a bool, and '0' is an int: write 'false'", 'int g(bool b) { return 0; } int f() { int x; x = g(false); return 0; }'),
    ('bool f(int x) { return @x~; }', 22, "'f' gives a bool, and 'x' is an int: write 'return x != 0;'", 'bool f(int x) { return x != 0; }'),
    ('int* p; int f() { if (@p == 0~) { } return 0; }', 22, "write 'p == null'", 'int* p; int f() { if (p == null) { } return 0; }'),
    ('bool b; int f() { if (@b == 1~) { } return 0; }', 22, "'b' is a bool: write 'b'", 'bool b; int f() { if (b) { } return 0; }'),
    ('bool b; int f() { if (@b == 0~) { } return 0; }', 22, "write '!b'", 'bool b; int f() { if (!b) { } return 0; }'),
    ('int* p; int f() { p = @0~; return 0; }', 22, "'p = null;'", 'int* p; int f() { p = null; return 0; }'),
    (STRUCT + 'int* p; struct s* q; int f() { q = new @int~; return 0; }', 22, "'new int' gives an int*: write 'new struct s'", STRUCT + 'int* p; struct s* q; int f() { q = new struct s; return 0; }'),
    ('int f(int cause) { if (cause @= 1) { } return 0; }', 12, "'=' assigns, and is no part of a condition: 'cause == 1'", 'int f(int cause) { if (cause == 1) { } return 0; }'),
    ('int f(int a)@; int f(int a) { return a; }', 12, "no prototypes: functions may call one another in any order, so remove 'int f(int a);'", 'int f(int a) { return a; }'),
    (STRUCT + '@s* head;', 12, "'struct s* head;'", STRUCT + 'struct s* head;'),
    (STRUCT + 'int f() { s @* p; return 0; }', 12, "'struct s* p;'", STRUCT + 'int f() { struct s* p; return 0; }'),
    ('int f(@a) { return a; }', 12, "a parameter has its type before its name: 'int a'", 'int f(int a) { return a; }'),
    ('int f(int a, @b) { return a; }', 12, "'int b'", 'int f(int a, int b) { return a; }'),
    ('struct s { int a; } @int x;', 12, "a struct ends in ';' behind its '}': '};'", 'struct s { int a; }; int x;'),
    ('int f(int a) {\n  if (a == 1) {\n    a = 2;\n  @return a;\n}\n', 12, "a '}' is missing: the '{' of line 2, 'if (a == 1) {', is open", 'int f(int a) {\n  if (a == 1) {\n    a = 2;\n  }\n  return a;\n}\n'),
    ('int f(int a) {\n  if (a == 1) {\n    a = 2;\n\n  if (a == 3) {\n    a = 4;\n  }\n  @return a;\n}\n', 12, "the '{' of line 2", 'int f(int a) {\n  if (a == 1) {\n    a = 2;\n  }\n  if (a == 3) {\n    a = 4;\n  }\n  return a;\n}\n'),
    ('int f() { return 0; } @}', 12, "this '}' closes nothing", 'int f() { return 0; }'),
    ('int x; int f() { if (x == 1) { } elif @(x == 2) { } return 0; }', 12, "C0 has no 'elif': write 'else { if (..) { .. } }'", 'int x; int f() { if (x == 1) { } else { if (x == 2) { } } return 0; }'),
    ('int ticks; int f() { @tick~ = 1; return 0; }', 20, "did you mean 'ticks'?", 'int ticks; int f() { ticks = 1; return 0; }'),
    ('int f() { int x; x = @vm_gt~(1, 2); return x; }', 20, "did you mean 'vm_get'?", 'int f() { int x; x = vm_get(1, 2); return x; }'),
    (STRUCT + 'struct s v; int f() { return v.@nxet~; }', 20, "did you mean 'next'?", STRUCT + 'struct s v; struct s* f() { return v.next; }'),
    ('int f() { int count; return 0; } int g() { return @count~; }', 20, "'count' is a name of the function 'f' alone", 'int count; int f() { return 0; } int g() { return count; }'),
]

# (heads in place of that of dispatch, what the sentence has); the refusal is 31
HEADS = [
    ('int dispatch(int cause, int data) { return 0; }', "'int dispatch(int cause, int data)' is there, and is to be 'int dispatch(int cause, int data, int user)'"),
    ('bool dispatch(int a, int b, int c) { return true; }', "'bool dispatch(int a, int b, int c)' is there"),
    ('int dispatch() { return 0; }', "'int dispatch()' is there"),
    ('int Dispatch(int a, int b, int c) { return 0; }', "'Dispatch' is there: is it to be 'int dispatch(int cause, int data, int user)'"),
    ('int dispach(int a, int b, int c) { return 0; }', "'dispach' is there"),
    ('int main() { return 0; }', "a user program's 'main' is there"),
    ('int x;', "no function 'dispatch' is in it: write 'int dispatch(int cause, int data, int user) { .. }'"),
]
