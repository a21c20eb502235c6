#include <stddef.h>
void *mmap(void *at, size_t bytes, int protection, int flags, int file, long from);
int mprotect(void *at, size_t bytes, int protection);
#define PROT_NONE 0
#define PROT_READ 1
#define PROT_WRITE 2
#define MAP_PRIVATE 2
#define MAP_ANONYMOUS 32
#define MAP_NORESERVE 16384
#define MAP_FAILED ((void *)-1)
