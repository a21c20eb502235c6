#include <stddef.h>
typedef struct file FILE;
int printf(const char *format, ...);
int sprintf(char *string, const char *format, ...);
int snprintf(char *string, size_t len, const char *format, ...);
int fflush(FILE *file);
