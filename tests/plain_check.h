// How many pairs a file has, looked at plainly as docs/FORMAT.md says it, or -1 where it is no good file. It shares no code with the
// program, and keeps all keys in memory.
#include <stddef.h>

long plain_pairs(const unsigned char *file, size_t size);
