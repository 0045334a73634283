/* The heap of the ladder's program, in place of the kit's: it counts. Requests of four sizes are marks, and refused: the
   rungs start, a call begins, it has ended, and all that its rung made is dropped. Then it prints how many requests the
   call made, their bytes, and how many blocks are still held of those that the rung asked for. A fifth kind of mark says
   which request of each call is refused. */
extern void *malloc(unsigned long);
extern void *realloc(void *, unsigned long);
extern void free(void *);
extern int dprintf(int, const char *, ...);

enum { REFUSES = 9998000, STARTS = 9999001, BEGINS, ENDS, DROPPED };
struct tried { unsigned long is_there; void *block; };

static long is_counted, requests, bytes, held, refused;

static struct tried tried(void *block) {
  return (struct tried){block != 0, block ? block : &requests};
}

static int is_mark(unsigned long n) {
  if (n < REFUSES || n > DROPPED) return 0;
  if (n < STARTS) refused = n - REFUSES;
  if (n == DROPPED) dprintf(1, "%ld %ld %ld ", requests, bytes, held);
  if (n != ENDS) requests = bytes = 0;
  if (n == STARTS || n == DROPPED) held = 0;
  is_counted = n == BEGINS;
  return 1;
}

/* Counts a request; one for no bytes gets as many as the alignment. */
static unsigned long counted(unsigned long n, unsigned long align) {
  if (is_counted) requests++, bytes += n;
  return n ? n : align;
}

static int is_refused(void) { return is_counted && requests == refused; }

struct tried rattle_alloc(unsigned long n, unsigned long align) {
  if (is_mark(n)) return tried(0);
  n = counted(n, align);
  if (is_refused()) return tried(0);
  held++;
  return tried(malloc(n));
}

struct tried rattle_realloc(void *old, unsigned long kept, unsigned long n, unsigned long align) {
  (void)kept;
  n = counted(n, align);
  return tried(is_refused() ? 0 : realloc(old, n));
}

void rattle_dealloc(void *old) {
  held--;
  free(old);
}
