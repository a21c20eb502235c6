#include <stddef.h>
void *memchr(const void *at, int byte, size_t bytes);
int memcmp(const void *is, const void *other, size_t bytes);
void *memcpy(void *to, const void *from, size_t bytes);
void *memset(void *at, int byte, size_t bytes);
int strcmp(const char *is, const char *other);
size_t strlen(const char *string);
int strncmp(const char *is, const char *other, size_t bytes);
