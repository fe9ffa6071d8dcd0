/* ndbm.h: a database of pairs of a key and a content in one file (POSIX.1-2017), and calls beyond the standard's, named dbmx_.
 * The manual page ndbm(3) says more.
 *
 * A program has to uphold this:
 * - One thread at a time calls with a DBM. Threads may call at once with one each.
 * - A DBM isn't used after dbm_close, nor from a signal handler.
 * - A child that fork made has no use of a DBM of its parent but to close it, unless it is shared. There dbm_close gives memory and
 *   descriptors back, and writes nothing, and every other call fails with EINVAL. A shared one is the child's as it is its parent's.
 * - A DBM comes from dbm_open or dbmx_open, and dsize bytes may be read at each dptr.
 * - The bytes at the dptr of an answer are read only. Those of a content stay until the next dbm_fetch with its DBM, and those
 *   of a key until the next dbm_firstkey or dbm_nextkey. Neither stay after dbm_close, and every other call leaves both. */
#ifndef KUMQUATFEN_NDBM_H
#define KUMQUATFEN_NDBM_H

#include <stddef.h>
#include <stdint.h>
#include <sys/types.h>

/* the version of the library, as text and in parts */
#define KUMQUATFEN_NDBM_VERSION "0.1.0"
#define KUMQUATFEN_NDBM_MAJOR 0
#define KUMQUATFEN_NDBM_MINOR 1
#define KUMQUATFEN_NDBM_PATCH 0

#ifdef __cplusplus
extern "C" {
#endif

/* so many bytes; dptr may be null where they are none */
typedef struct {
    void *dptr;
    size_t dsize;
} datum;

/* an open database */
typedef struct ndbm_database DBM;

/* the modes of dbm_store: a key that is there keeps its content, or gets the new one */
#define DBM_INSERT 0
#define DBM_REPLACE 1

/* what the name of a database's file has behind the name that dbm_open is given, where it is one file */
#define DBM_SUFFIX ".db"

/* Where a call fails, it answers -1 or a null pointer, and errno says why. A call that succeeds leaves errno as it was. */

/* Opens the database in the file `file`.db; mode is that of a file that is made, which is of version 2 of the file format. With
 * KUMQUATFEN_NAMES=pag in the environment that is `file`.pag, with the empty file `file`.dir beside it. Where another opening has the
 * file it is tried again for 5 seconds, or for those of KUMQUATFEN_WAIT in the environment, 0 to 86400, and then fails with EAGAIN. */
DBM *dbm_open(const char *file, int flags, mode_t mode);
void dbm_close(DBM *db);
/* 0, or 1 where DBM_INSERT finds the key */
int dbm_store(DBM *db, datum key, datum content, int store_mode);
/* a null dptr where the key isn't there, with errno as it was */
datum dbm_fetch(DBM *db, datum key);
/* -1 with ENOENT where the key isn't there */
int dbm_delete(DBM *db, datum key);
/* the keys, each once; a null dptr behind the last, with errno as it was */
datum dbm_firstkey(DBM *db);
datum dbm_nextkey(DBM *db);
/* 0, or the number of the first fault since the opening or the last clearing */
int dbm_error(DBM *db);
int dbm_clearerr(DBM *db);

/* The file's descriptor, which has the lock; that of the new file, where one is built beside the old one. It is for fstat and the like.
 * To lock it or to unlock it changes or ends the lock. */
int dbm_pagfno(DBM *db);
/* The descriptor of an empty file that has no name, for programs that lock it around their calls: any lock of it is had at once, keeps
 * nobody out, and leaves that of the database. It has the mode and the times that the database's file had when it was opened. With
 * DBMX_UNLOCKED it is the file's descriptor. Where there is `file`.dir it is that one's, and locks of it are the program's alone. */
int dbm_dirfno(DBM *db);
/* 1 where the database was opened for reading, else 0 */
int dbm_rdonly(DBM *db);

/* The most bytes that a key and its content have together in a database of version 1 of the file format. One of version 2 has
 * such pairs, and also those whose key and content have at most so many bytes. */
#define DBMX_PAIR_MAX 2026
#define DBMX_KEY_MAX 1023
#define DBMX_CONTENT_MAX 65535

/* an option of dbmx_how: the file isn't locked. The program then has to see to it that no other opening has the file while one
 * may write it; else pairs are lost, and the file is damaged. */
#define DBMX_UNLOCKED 1u
/* an option of dbmx_how: a database that is made or emptied is of version 1, and else of version 2 */
#define DBMX_VERSION_1 2u
/* an option of dbmx_how: its member pages is looked at, which programs that were compiled over older versions of this file lack */
#define DBMX_PAGES 4u
/* An option of dbmx_how: the file is shared. It is locked within each call alone, together with others by one that reads, and a call
 * finds what the calls of others have left. It goes with neither DBMX_UNLOCKED nor DBMX_VERSION_1, and a file of the first kind is refused
 * with ENOTSUP: `dbmtool upgrade --syncs 1 FILE` makes it one of the second. KUMQUATFEN_SHARED=1 in the environment is as this option
 * for dbm_open, and for dbmx_open where how is null. */
#define DBMX_SHARED 8u
/* An option of dbmx_how: a database that this opening makes or empties is built. Up to dbm_close its stores share commits, so pairs that
 * were answered may not be on the disk before any other call with it, and dbmx_sync tells whether they are. One that is emptied (O_TRUNC)
 * is built in the file `file`.db.new, and takes the place of the old one at dbm_close: others read that meanwhile, and nobody writes it.
 * It goes with neither DBMX_UNLOCKED nor DBMX_SHARED. KUMQUATFEN_BUILD=1 in the environment is as this option for dbm_open, and for
 * dbmx_open where how is null. */
#define DBMX_BUILD 16u

/* how a database is opened; all members 0: as dbm_open does, but no lock is waited for */
typedef struct {
    /* the most pairs of a database that is made or emptied, 1 to 1000000; 0: 1000000 */
    unsigned limit;
    /* For so many seconds the opening is tried again where another program has the file open. With DBMX_SHARED it is for so many that each
     * call waits, and 0 is for 10. */
    unsigned wait;
    /* 0, or of DBMX_UNLOCKED, DBMX_VERSION_1, DBMX_PAGES, DBMX_SHARED and DBMX_BUILD those that are wanted */
    unsigned options;
    /* with DBMX_PAGES: how many pages of the file, of 2048 bytes each, are kept in memory at most, 1 to 65536; without: 16384 */
    unsigned pages;
} dbmx_how;

typedef struct {
    datum key;
    datum content;
} dbmx_pair;

typedef struct {
    /* how many pairs there are, and how many there may be */
    uint32_t pairs, limit;
    /* the linear hash table: its buckets, its level and the bucket that is split next */
    uint32_t buckets, level, split;
    /* how many pages the file has, and how many of them are free */
    uint32_t pages, free;
} dbmx_numbers;

/* as dbm_open where how is null; fault may be null, and else gets the number of the fault, or 0 */
DBM *dbmx_open(const char *file, int flags, mode_t mode, const dbmx_how *how, int *fault);
/* puts the pages of the last commit in their places in the file; what was stored is on the disk without it */
int dbmx_sync(DBM *db);
/* stores pairs as by DBM_REPLACE, in order and many in one commit; stored may be null, and else gets how many are there */
int dbmx_store_many(DBM *db, const dbmx_pair *pairs, size_t count, size_t *stored);
int dbmx_stat(DBM *db, dbmx_numbers *numbers);
/* reads every page: 0 where the structure of the file is whole */
int dbmx_verify(DBM *db);
/* the version of the file's format, 1 or 2 */
int dbmx_version(DBM *db);
/* makes a database of version 1 one of version 2, which a library from before version 2 can't open; one of version 2 stays */
int dbmx_upgrade(DBM *db);
/* what a fault of this number means */
const char *dbmx_error_text(int fault);

#ifdef __cplusplus
}
#endif

#endif
