// What peer.c asks of a database. peer_gdbm.c, peer_berkeley.c and peer_lmdb.c answer it, each for
// a library.
#include <stdbool.h>
#include <stddef.h>

struct word {
    char *bytes;
    size_t length;
};

// Ends the program with 1 and a line that names the call that failed.
void fail(const char *call);

// Opens the database of this name, and makes it where there is none.
void peer_open(char *name);
void peer_store(struct word key, struct word content);
// Fetches and passes come only when every change was synced. What they find stays until the next
// call.
bool peer_fetch(struct word key, struct word *content);
bool peer_delete(struct word key);
bool peer_first(struct word *key);
bool peer_next(struct word *key);
// Every change so far is on the disk.
void peer_sync(void);
void peer_close(void);
