/* Memory for the proved code of the static library: what it calls to take, resize and give back.
 *
 * All three are weak and stand in an object of their own. An application that has memory of its own
 * defines all three, and then none of these is linked. `align` is at most 16, for which malloc's
 * blocks serve. No header is included, so that a compiler without a C library builds this for any
 * processor. */
typedef __SIZE_TYPE__ Size;

extern void *malloc(Size size);
extern void *realloc(void *block, Size size);
extern void free(void *block);

/* A block, or no memory. `block` isn't null in either case. */
struct Tried {
  _Bool done;
  void *block;
};

struct Tried rattle_alloc(Size size, Size align);
struct Tried rattle_realloc(void *block, Size kept, Size size, Size align);
void rattle_dealloc(void *block);

static char nothing[16];

static struct Tried tried(void *block) {
  struct Tried answer = {block != 0, block != 0 ? block : nothing};
  return answer;
}

__attribute__((weak)) struct Tried rattle_alloc(Size size, Size align) {
  return tried(malloc(size != 0 ? size : align));
}

__attribute__((weak)) struct Tried rattle_realloc(void *block, Size kept, Size size, Size align) {
  (void)kept;
  return tried(realloc(block, size != 0 ? size : align));
}

__attribute__((weak)) void rattle_dealloc(void *block) { free(block); }
