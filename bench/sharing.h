// What sharing.c asks of a table of pairs that several processes have open. sharing_kumquatfen.c, sharing_lmdb.c and sharing_sqlite.c answer
// it, each for a library.
#include <stdbool.h>
#include <stddef.h>

enum { PAIRS = 10000, CONTENT = 100, KEY_ROOM = 24 };

// Ends the process with 1 and a line that names the call that failed.
void fail(const char *call);
// The key of a pair, and how long it is; content of CONTENT bytes.
size_t key_of(unsigned pair, char *key);

// Makes a new table in this folder, with all pairs and these contents.
void table_make(const char *content);
// Opens the table, to change it or to read it alone. With `alone` no other process has it meanwhile, where the library can tell.
void table_open(bool writes, bool alone);
// How many bytes the content has.
size_t table_fetch(const char *key, size_t size);
// It is on the disk behind that.
void table_store(const char *key, size_t size, const char *content);
void table_close(void);
