/* What ndbm.c stands on: the functions that the crate ndbm_c exports, and those of the other texts beside it. */
#ifndef NDBM_PARTS_H
#define NDBM_PARTS_H

#include <stdbool.h>
#include <stdint.h>
#include <sys/stat.h>
#include <time.h>

#include "ndbm.h"

/* faults that C tells itself */
enum { MEMORY = 1, DEVICE = 2, BROKEN = 3, MISSING = 14, EXISTS = 15 };

/* a device of the crate, or a database over one; {NULL, false} holds none */
struct handle {
    void *at;
    bool is_open;
};

/* the file below a device, and how many sectors of 512 bytes the device has */
struct served_file {
    uint32_t sectors;
};

struct how {
    bool writable, create, exclusive, truncate;
    /* a database that is made or emptied is of version 1, and else of version 2 */
    bool first_version;
    uint32_t limit;
    /* how many pages are kept in memory at most, 0 for as many as are kept where nobody asks */
    uint32_t kept_pages;
};

/* how many bytes there have to be where an export gives a key, and where it gives a content */
enum { KEY_ROOM = 2048, CONTENT_ROOM = 65536 };

/* the bytes of a sector, and how many sectors one call of the system moves */
enum { SECTOR = 512, MOVED = 32 };

/* A status is 0; 1 where a key wasn't there, or was and stays; or minus the number of a fault. No pointer is null. What an export
 * writes to is no part of what it reads. */

/* how many sectors the device over any file has */
uint32_t ndbm_c_file_sectors(void);
/* The handle holds a device over the file, with nothing known and nothing listed: 0, or -1 where there is no memory. */
int32_t ndbm_c_begin(struct handle *, struct served_file);
/* The device becomes a database; where it is refused, it stays a device. */
int32_t ndbm_c_open(struct handle *, const struct how *);
/* Pages that wait are put in their places, and the database becomes a device again, whatever is answered. */
int32_t ndbm_c_close(struct handle *);
/* The handle holds none afterwards. Nothing is written. */
void ndbm_c_drop(struct handle *);

int32_t ndbm_c_fetch(struct handle *, const unsigned char *key, size_t key_size, unsigned char *content, size_t *length);
int32_t ndbm_c_store(struct handle *, const unsigned char *key, size_t key_size, const unsigned char *content,
                     size_t content_size, bool replace);
int32_t ndbm_c_delete(struct handle *, const unsigned char *key, size_t key_size);
int32_t ndbm_c_firstkey(struct handle *, unsigned char *key, size_t *length);
int32_t ndbm_c_nextkey(struct handle *, unsigned char *key, size_t *length);
/* The pass stands behind this key, as if it had been given last: 0. No sector is read. */
int32_t ndbm_c_resume(struct handle *, const unsigned char *key, size_t key_size);
/* the first fault since the opening or the last clearing, or 0 */
int32_t ndbm_c_error(struct handle *);
int32_t ndbm_c_clearerr(struct handle *);
int32_t ndbm_c_sync(struct handle *);
int32_t ndbm_c_stat(struct handle *, dbmx_numbers *);
int32_t ndbm_c_verify(struct handle *);
int32_t ndbm_c_upgrade(struct handle *);
/* the number of the version, or minus that of a fault */
int32_t ndbm_c_version(struct handle *);
/* Keeps a copy of a pair that is to be stored with others: 0, or -1 where there is no memory. */
int32_t ndbm_c_add(struct handle *, const unsigned char *key, size_t key_size, const unsigned char *content,
                   size_t content_size);
/* Stores the pairs that were kept in one commit, as by DBM_REPLACE, and forgets them, whatever is answered: 0, and in `stored`
 * how many are stored, from the first one on. It is 0 where even the first one has to be stored by itself. */
int32_t ndbm_c_store_added(struct handle *, size_t *stored);

/* Whether the last call lacked a sector, and which one. A call that lacked none sets nothing. */
bool ndbm_c_lacks(struct handle *, uint32_t *sector);
/* What this sector holds with all carried out that is listed: 0, or -1 where there is no memory. That is no fault of the
 * database. */
int32_t ndbm_c_give(struct handle *, uint32_t sector, const unsigned char *bytes);
/* Change i of those that are listed, from 0 on, the oldest first: NO_CHANGE where there are no more, WRITE of these bytes to the
 * sector, or SYNC. */
enum { NO_CHANGE, WRITE, SYNC };
int32_t ndbm_c_listed(struct handle *, size_t i, uint32_t *sector, unsigned char *bytes);
/* All that was listed is carried out. The list is empty then, and the device forgets which sectors it knew. */
int32_t ndbm_c_carried_out(struct handle *);

/* The arguments of a program, in ndbm.c, groups.c and storing.c. */

static inline bool is_datum(datum it) {
    return (it.dptr || !it.dsize) && it.dsize <= PTRDIFF_MAX;
}

/* a pointer to the bytes that is never null */
static inline const unsigned char *bytes_of(datum it) {
    return it.dptr ? it.dptr : (const unsigned char *)"";
}

/* bytes.c: bytes of a file. */

/* the number of a call of the system that failed just now */
int ndbm_system_number(void);
/* Reads bytes of the file, and zeros for those past its end. It answers how many the file has, or -1 with errno. */
ssize_t ndbm_bytes_read(int fd, unsigned char *bytes, size_t size, off_t at);
/* Writes all of them: 0, or the system's number. */
int ndbm_bytes_write(int fd, const unsigned char *bytes, size_t size, off_t at);
/* Syncs them: 0, or the system's number. */
int ndbm_bytes_sync(int fd);
/* The same with all else that the system keeps of a file, or of a folder. */
int ndbm_bytes_sync_all(int fd);
/* Closes a descriptor, keeps errno, and answers -1. */
int ndbm_give_up(int fd);

/* turn.c: the turn number of a file of the second kind. */

/* how the commits of a file are made; NO_KIND is a blank file, or one that is no database */
enum kind { NO_KIND, FIRST_KIND, SECOND_KIND };

/* what the first bytes of a file say */
struct head {
    enum kind kind;
    uint64_t turn;
};

/* how many bytes these are, the sector that the turn stands in, and what they say */
enum { HEAD = 520, TURN_SECTOR = 1 };
struct head ndbm_turn_of(const unsigned char *bytes);
/* what those of the file say: 0, or -1 with errno */
int ndbm_turn_look(int fd, struct head *);
/* whether an opening makes a database in the file, or empties one, and so writes */
bool ndbm_turn_is_made(int fd, const struct how *);

/* The turn as an opening of the file knows it, and whether this opening has made it odd, and not even since. */
struct turn {
    uint64_t number;
    bool is_odd;
};

/* Makes the turn odd, before the first write of a period; of a file that isn't of the second kind only where this write makes it one.
 * It answers 0, or the system's number, and nothing may be written then. */
int ndbm_turn_begins(struct turn *, int fd, bool makes_second_kind);
/* Makes the turn even, behind the last sync, where it was made odd. One that the system refuses to write stays odd, as if a writer had
 * died. */
void ndbm_turn_ends(struct turn *, int fd);
/* Leaves it as it is in the file, behind a write or a sync that was refused. */
void ndbm_turn_is_left(struct turn *);

/* place.c: whether all who have a file see the same bytes at one moment. */

/* FAR: not known; LAYERED: they do, but a mapping of it may be one of other bytes; NEAR: they do, also by a mapping */
enum place { FAR, LAYERED, NEAR };
enum place ndbm_place_of(int fd);

/* locking.c: the lock of a file, and the turnstile before it. */

/* the time, in nanoseconds, and that behind so many seconds */
uint64_t ndbm_now(void);
uint64_t ndbm_until(unsigned seconds);
/* Waits for so many nanoseconds, or less where a signal comes. */
void ndbm_pause(uint64_t time);
/* Locks the file, alone or together with others: 0, or -1 with errno, which is EWOULDBLOCK where the lock isn't had by then. */
int ndbm_lock_take(int fd, bool alone, bool has_turnstile, uint64_t until);
/* The same of one try, without the turnstile. */
int ndbm_lock_at_once(int fd, bool alone);
/* Gives it back. errno stays. */
void ndbm_lock_give_back(int fd);

/* owner.c: the process that opened a database, and what its children find cleared, or null */
struct owner {
    pid_t process;
    const volatile unsigned char *mark;
};

/* The process that calls this is the owner. errno stays. */
void ndbm_owner_begins(struct owner *);
/* whether the process that calls this is the owner, and no child that fork made of it */
bool ndbm_owner_is_here(const struct owner *);
/* Gives back what it holds, in the owner or in a child. */
void ndbm_owner_ends(struct owner *);

/* serving.c: a database, and the file that serves it. */

/* What an export reads, which decides how much is read where it lacks a sector: the pages of one pair, those of a group, whatever
 * pages the file has, or what an opening looks at. */
enum reading { OF_PAIR, OF_GROUP, OF_FILE, OF_OPENING };

struct shared;

struct served {
    struct handle handle;
    int fd;
    struct owner owner;
    struct turn turn;
    /* what a shared handle has besides, or null */
    struct shared *shared;
    /* whether a change was cut short, since the system refused a write or a sync of the file, or there was no memory to list one;
     * the handle is then only dropped */
    bool is_dead;
    /* the first fault, where the crate has none, or 0 */
    int fault;
    /* The rest is of the call that is under way: errno before it, and whether there was no error before it. */
    int before;
    bool was_clear;
    /* what it reads; how often the export that is made again lacked a sector; and how many sectors were given */
    enum reading reading;
    unsigned misses;
    uint32_t given;
    /* the system's number for what it refused, or 0 */
    int system;
};

/* A call of a database is made so: it begins, exports are made again as long as that is asked for, and it ends. */

/* Opens the database in the file of a descriptor. It answers the number of the fault, or 0, and errno says the same. Where it
 * is refused the descriptor is closed. */
int ndbm_served_open(struct served *, int fd, const struct how *how);
/* The same for a handle that has a descriptor and holds no database. The descriptor stays open. */
int ndbm_served_holds(struct served *, const struct how *how);
/* Closes it, and its descriptor. errno says where that failed, and else is as it was. */
void ndbm_served_close(struct served *);
/* Closes it, and its descriptor stays open: 0, or the number of errno. */
int ndbm_served_shut(struct served *);
/* From here on the handle is dead. It has a fault then. */
void ndbm_served_dies(struct served *);
/* Gives back the memory and the descriptor that a child of the process which opened it has. Nothing is written, and errno stays. */
void ndbm_served_leave(struct served *);
/* whether a call that reads this may begin, which may change pairs or only reads; where it may not, errno says why */
bool ndbm_served_begins(struct served *, enum reading, bool changes);
/* Whether an export that answered this status is made again: it lacked a sector, which it has now. */
bool ndbm_served_again(struct served *, int32_t status);
/* the status of a fetch into the room for a content, within a call */
int32_t ndbm_served_fetch(struct served *, datum key, unsigned char *content, size_t *length);
/* Carries out what the exports of the call listed, and answers the status of the call. errno is set where it is below 0, and
 * else is as it was before the call. */
int32_t ndbm_served_ends(struct served *, int32_t status);
/* Forgets the fault of an export whose answer isn't told. */
void ndbm_served_forgets(struct served *);
int ndbm_served_error(struct served *);
int ndbm_served_clearerr(struct served *);
/* Keeps a fault, where there was none before it. */
void ndbm_served_keeps(struct served *, int fault);

/* reading.c: Gives the sector that an export lacked, with others: 0, or the system's number. */
int ndbm_give_lacked(struct served *, uint32_t sector);

/* carrying.c: Carries out what is listed, in its order: 0, or the system's number for what it refused. */
int ndbm_carry_out(struct served *);

/* groups.c: pairs that are stored in one commit. */

/* how many pairs a commit has at most, and how much it may have of their bytes */
enum { GROUP_PAIRS = 8192, GROUP_BYTES = 1 << 20 };

/* how many pairs a group has, and how much of one they take, which is no less than their bytes are */
struct extent {
    size_t count, size;
};

/* Whether a pair goes into a group of this extent, which then has it. */
bool ndbm_group_takes(struct extent *, const dbmx_pair *pair);
/* how many of the pairs, from the first on, go into one */
size_t ndbm_group_size(const dbmx_pair *pairs, size_t count);
/* whether a database of version 1 may have the pair too */
bool ndbm_group_is_near(const dbmx_pair *pair);
/* Stores them, within a call, and answers the status, and in `stored` how many are stored. */
int32_t ndbm_group_store(struct served *, const dbmx_pair *pairs, size_t count, size_t *stored);

/* storing.c: stores of pairs, each of which begins and ends calls. */

/* 0, or 1 where the key is there and stays, or -1 with errno */
int ndbm_store_one(struct served *, const dbmx_pair *, bool replace);
/* Stores them as by DBM_REPLACE, in their order: 0, or -1 with errno, and in `done` how many are stored, from the first on. */
int ndbm_store_list(struct served *, const dbmx_pair *pairs, size_t count, size_t *done);

/* building.c: stores that share commits. */

struct kept;

struct building {
    bool is_under_way, is_first_version;
    /* the pairs that wait for a commit, or null */
    struct kept *kept;
};

/* Stores share commits from here on, in a database that was made or emptied so. */
void ndbm_building_begins(struct building *, const struct how *);
/* Gives memory back, with pairs that were kept. errno stays. */
void ndbm_building_ends(struct building *);
/* As ndbm_store_one, but the pair may be kept, up to a commit with others. */
int ndbm_building_store(struct building *, struct served *, const dbmx_pair *, bool replace);
/* Stores the pairs that are kept: 0, or -1 with errno, and the handle is dead then. With none it does nothing. */
int ndbm_building_commits(struct building *, struct served *);

/* environment.c: what the environment says to programs that can't be changed. */

/* for how many seconds a lock is waited for: what KUMQUATFEN_WAIT says, or else so many */
unsigned ndbm_environment_wait(unsigned otherwise);
/* whether a program that doesn't say how it opens a database shares it: KUMQUATFEN_SHARED is 1 */
bool ndbm_environment_shares(void);
/* whether such a program builds one that it makes or empties: KUMQUATFEN_BUILD is 1 */
bool ndbm_environment_builds(void);
/* Whether the files of a database are FILE.pag and FILE.dir, and not FILE.db, by KUMQUATFEN_NAMES. Where that says nothing they are so in
 * a library that was compiled with KUMQUATFEN_NAMES_PAG. */
bool ndbm_environment_has_two_names(void);

/* naming.c: the names of the files of a database. */

/* Both texts in one, as the others here, in memory of their own; null where there is none. */
char *ndbm_naming_joined(const char *text, const char *behind);
/* the path of the file with the pairs */
char *ndbm_naming_path(const char *file);
/* Opens FILE.dir where there are two files, or makes it: 0, and in `dir` its descriptor, or -1 where it isn't there; -1 with errno. */
int ndbm_naming_open_dir(const char *file, int flags, mode_t mode, int *dir);

/* file.c: opening a file. */

/* whether the flags ask for writing */
bool ndbm_file_is_written(int flags);
/* the number of the fault where the system refused a file that was to be opened so */
int ndbm_fault_of(int error, int flags);
/* The descriptor of the file, opened, or made, and what fstat told of it; -1 with errno where that was refused. It is locked where
 * `how` doesn't ask for an opening that is shared or unlocked. */
int ndbm_file_open(const char *path, int flags, mode_t mode, const dbmx_how *how, struct stat *);
/* The same of a file that is there, by its name in a folder. It isn't locked. */
int ndbm_file_open_named(int folder, const char *name, int flags, struct stat *);
/* The descriptor of a file that isn't there, made by this name in a folder, which its owner alone may open; -1 with errno. */
int ndbm_file_make_named(int folder, const char *name, int flags);
/* the descriptor of a file that has no lock of the library, opened, or made where the flags say so; -1 with errno */
int ndbm_file_open_empty(const char *path, int flags, mode_t mode);
/* the descriptor of the folder of a path, opened as `way` says, by which names in it are looked at, or -1 with errno */
int ndbm_file_open_folder(const char *path, int way);
/* Locks a file, alone or together with others, within a moment where it is waited for: 0, or -1 with errno. */
int ndbm_file_lock(int fd, bool alone, bool waits);
/* Whether a try that began at this time, and failed by errno, is made again. Its time has come then. */
bool ndbm_file_is_tried_again(uint64_t began, uint64_t until);
/* The descriptor of a new file that has no name and no bytes, and this mode and these times; -1 with errno where there is none.
 * Nobody else has it, so any lock of it is had at once. */
int ndbm_file_stand_in(const struct stat *);

/* name.c: the name under which a shared handle finds its file, and which file it had there. */
struct name {
    int folder;
    char *text;
    dev_t device;
    ino_t number;
    /* what the file's times and size were, behind the last look under the lock or the last write of this handle */
    struct timespec written, changed;
    off_t size;
};

/* The name at the end of the path, of the file that has it: 0, or -1 with errno. */
int ndbm_name_begins(struct name *, const char *path, const struct stat *file);
void ndbm_name_ends(struct name *);
/* whether this is the file that had the name */
bool ndbm_name_is_of(const struct name *, const struct stat *file);
/* whether nobody wrote to it since its times were noted */
bool ndbm_name_is_unwritten(const struct name *, const struct stat *file);
void ndbm_name_notes(struct name *, const struct stat *file);

/* sharing.c and period.c: handles that have the lock within a call alone. */

/* where the pass of a shared handle stands: nowhere; before all keys; behind the last one that was given */
enum pass { NOT_BEGUN, BEGUN, BEHIND };

/* what a shared handle has of the lock */
enum held { NOTHING, TOGETHER, ALONE };

struct shared {
    struct name name;
    /* how the database is opened again, and the file; for how many seconds a call waits for the lock */
    struct how how;
    int flags;
    unsigned wait;
    enum place place;
    /* the first bytes of the file, mapped, or null */
    void *head;
    /* whether the database that is held is right for the turn that is known, and whether it was opened for writing */
    bool is_current, is_writing;
    enum held held;
    /* the odd turn at which what a writer left was synced, or 0 */
    uint64_t synced;
    /* in which second the name was looked at */
    time_t looked;
    /* the pass, and the last key that it gave */
    enum pass pass;
    unsigned char last[KEY_ROOM];
    size_t last_size;
};

/* what an opening is asked for, and where */
struct asked {
    const char *path;
    int flags;
    unsigned wait;
    struct how how;
};

/* As ndbm_served_open, of a file that has no lock. */
int ndbm_shared_open(struct served *, int fd, const struct stat *file, const struct asked *);
/* Gives all back, in any process. Nothing is written, and errno stays. */
void ndbm_shared_close(struct served *);
/* whether a call may begin; where it may not, errno says why */
bool ndbm_shared_begins(struct served *, bool changes);
/* What becomes of an export that lacked a sector: it is given the sector; or is made again on the database as it is now; or the call
 * is refused, with the number of errno in `system`. */
enum miss { IS_GIVEN, IS_ANEW, IS_REFUSED };
enum miss ndbm_shared_misses(struct served *);
/* Ends a call, which was cut short or not. */
void ndbm_shared_ends(struct served *, bool is_cut_short);
/* whether the next key of the pass is the first one of a new pass, which is the same where the pass stands before all keys */
bool ndbm_shared_begins_pass(const struct served *);
/* Notes what the first or the next key of a pass was, by the status of its export. */
void ndbm_shared_passed(struct served *, bool is_first, int32_t status, const unsigned char *key, size_t length);

/* aside.c: a database that is built in a file beside the one whose place it takes. */

struct aside {
    bool is_under_way;
    /* the folder, and the old file, which is locked together with others */
    int folder, old;
    /* the name of the old file, and that of the one beside it */
    char *name, *beside;
};

/* whether an opening with these flags empties a file that has bytes */
bool ndbm_aside_is_wanted(const char *path, int flags);
/* Opens a database in a new file beside the one of the path, and tells of the old one: 0, or the number of the fault, with errno. */
int ndbm_aside_open(struct aside *, struct served *, const struct asked *, struct stat *old);
/* Closes the database and its descriptor, and gives its file the name of the old one, which stays where anything fails. errno says that,
 * and else is as it was. */
void ndbm_aside_close(struct aside *, struct served *);
/* the descriptor of the old file, which has the name up to the closing */
int ndbm_aside_named(const struct aside *);
/* Gives back what a child has of one. */
void ndbm_aside_leave(struct aside *);

/* Locks the file, alone or together with others, and looks at its name and its turn: 0, or -1 with errno, and nothing is held then. */
int ndbm_period_begins(struct served *, bool alone);
/* whether a read may be answered of what is kept, with no lock */
bool ndbm_period_is_spared(struct served *);
/* Ends one that was begun, all of whose writes are synced where the turn is to be even. */
void ndbm_period_ends(struct served *);
/* Gives back what periods have of the file. */
void ndbm_period_forgets(struct shared *);

#endif
