/*
 * The memory of the kernel-shaped library, over `malloc` and `free`. `./wf lib --kernel` compiles this file
 * into the library. It includes no header, because the compiler of the kit has none.
 */
typedef __SIZE_TYPE__ size;

void *malloc(size octets);
void free(void *block);
void *memcpy(void *to, const void *from, size octets);

/* Whether there was memory, and the address of the block. */
struct block {
  size found;
  void *at;
};

struct block rattle_alloc(size octets, size alignment);
struct block rattle_realloc(void *old, size old_octets, size octets, size alignment);
void rattle_dealloc(void *block);

/* Allocates a block. One of size 0 gets `alignment` octets, so that each block has its own address. */
struct block rattle_alloc(size octets, size alignment) {
  struct block made = {0, 0};
  made.at = malloc(octets ? octets : alignment);
  made.found = made.at != 0;
  return made;
}

/* Moves what a block holds to one of another size. If there is no memory, the old block is unchanged. */
struct block rattle_realloc(void *old, size old_octets, size octets, size alignment) {
  struct block made = rattle_alloc(octets, alignment);
  if (made.found) {
    memcpy(made.at, old, old_octets < octets ? old_octets : octets);
    free(old);
  }
  return made;
}

/* Frees a block. */
void rattle_dealloc(void *block) {
  free(block);
}
