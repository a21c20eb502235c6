void (*signal(int number, void (*handler)(int)))(int);
#define SIGBUS 7
#define SIGFPE 8
#define SIGSEGV 11
