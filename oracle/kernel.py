"""The kernel over its users and the console: what the primitives do, written from docs/MEANING.md apart from the crates."""
from oracle.c0.meaning import Meaning
from oracle.words import M, signed

LOG = 4096


class Kernel(Meaning):
    """A run of a kernel's unit over users, of at most so many pages each, and a console with input words. `notes` has, for each user, the rows of its
    journal that the primitives make, and is None where nobody wants them; `refusal` says why the last primitive answered false or -1, and is None where it didn't."""

    def __init__(self, unit, heap, stack, users, most, inputs):
        Meaning.__init__(self, unit, heap, stack, 10**9)
        self.users, self.most, self.log, self.inputs = users, most, [], inputs
        self.notes, self.refusal, self.taken = {}, None, 0

    def primitive(self, name, args):
        self.refusal = None
        return getattr(self, name)(*[int(x) for x in args])

    def bad(self, answer, why):
        self.refusal = why
        return answer

    def user(self, u):
        return self.users[u - 1] if 1 <= u <= len(self.users) else None

    def note(self, u, row):
        if self.notes is not None:
            self.notes.setdefault(u, []).append(row)

    def no_user(self, u):
        return 'there is no user %d' % u

    def no_register(self, u, r):
        if not self.user(u):
            return self.no_user(u)
        return None if 1 <= r <= 32 else 'register %d is none of 1 to 31, nor 32 for the pc' % r

    def no_word(self, u, a, n=1):
        """Why n words at an address are not all words of a user; None where they are."""
        f = self.user(u)
        if not f:
            return self.no_user(u)
        if a < 0:
            return 'the address %d is negative' % a
        if a % 4:
            return 'the address %d is no multiple of 4' % a
        if a + 4 * n > 4096 * f.pages():
            return 'address %d is past the %d pages of user %d, which end at %d' % (a + 4 * max(n, 1) - 4, f.pages(), u, 4096 * f.pages())
        return None

    def vm_get(self, u, r):
        why = self.no_register(u, r)
        if why:
            return self.bad(-1, why)
        f = self.user(u)
        return signed(f.pc if r == 32 else f.r[r])

    def vm_set(self, u, r, v):
        why = self.no_register(u, r)
        if why:
            return self.bad(False, why)
        f = self.user(u)
        if r == 32:
            f.pc = v & M
        else:
            f.r[r] = v & M
        self.note(u, 'set %d %08x' % (r, v & M))
        return True

    def vm_size(self, u):
        f = self.user(u)
        return f.pages() if f else self.bad(-1, self.no_user(u))

    def vm_resize(self, u, pages):
        f = self.user(u)
        if not f:
            return self.bad(False, self.no_user(u))
        if not 0 <= pages <= self.most:
            return self.bad(False, "%d pages are none of 0 to %d, which is 'pages' of the parameters" % (pages, self.most))
        f.resize(pages)
        self.note(u, 'size %d' % pages)
        return True

    def vm_word(self, u, a):
        why = self.no_word(u, a)
        return self.bad(-1, why) if why else signed(self.user(u).m[a // 4])

    def vm_put(self, u, a, v):
        why = self.no_word(u, a)
        if why:
            return self.bad(False, why)
        self.user(u).m[a // 4] = v & M
        self.note(u, 'put %08x %08x' % (a, v & M))
        return True

    def vm_copy(self, u, a, v, b, k):
        why = 'the number of words, %d, is negative' % k if k < 0 else self.no_copy(u, a, v, b, k)
        if why:
            return self.bad(False, why)
        f, g = self.user(u), self.user(v)
        g.m[b // 4:b // 4 + k] = f.m[a // 4:a // 4 + k]
        for i in range(k if self.notes is not None else 0):
            self.note(v, 'put %08x %08x' % (b + 4 * i, g.m[b // 4 + i]))
        return True

    def no_copy(self, u, a, v, b, k):
        why = self.no_word(u, a, k) or self.no_word(v, b, k)
        if not why and u == v and a < b + 4 * k and b < a + 4 * k:
            return 'the two ranges of user %d share a word' % u
        return why

    def con_put(self, w):
        if len(self.log) >= LOG:
            return self.bad(False, 'the console has %d words' % LOG)
        self.log.append(w & M)
        return True

    def con_get(self):
        if self.taken == len(self.inputs):
            return 0
        self.taken += 1
        return signed(self.inputs[self.taken - 1])

    def con_left(self):
        return len(self.inputs) - self.taken
