/* Which folder an opening syncs, so that a stop leaves the name of a file that it made, and what it does where it can't. */
#include <sys/syscall.h>

#include "check.h"

/* the folder that was synced last, and whether one can't be */
static ino_t synced;
static bool is_unsyncable;

int fsync(int fd) {
    struct stat it;
    if (!fstat(fd, &it) && S_ISDIR(it.st_mode)) {
        synced = it.st_ino;
        if (is_unsyncable) {
            errno = EDQUOT;
            return -1;
        }
    }
    return (int)syscall(SYS_fsync, fd);
}

static ino_t inode_of(const char *path) {
    struct stat it;
    return stat(path, &it) ? 0 : it.st_ino;
}

/* the folder of a file that is made is synced, and where it can't be the opening is refused and the file stays */
static void folders(void) {
    char here[4000], path[4100];
    int fault = 0;
    CHECK(!mkdir("folder", 0755) && !mkdir("folder/below", 0755) && getcwd(here, sizeof here));
    snprintf(path, sizeof path, "%s/folder/absolute", here);
    const struct {
        const char *file, *folder;
    } each[] = {
        {"plain", "."}, {"./dotted", "."}, {"folder/one", "folder"}, {"folder/below/two", "folder/below"}, {path, "folder"},
    };
    for (size_t i = 0; i < sizeof each / sizeof *each; i++) {
        synced = 0;
        dbm_close(open_or_end(each[i].file, i % 2 ? O_RDWR | O_CREAT : O_RDWR | O_CREAT | O_EXCL));
        CHECK(synced && synced == inode_of(each[i].folder));
        synced = 0;
        dbm_close(open_or_end(each[i].file, O_RDWR | O_CREAT));
        CHECK(!synced);
    }
    is_unsyncable = true;
    FAILS(EDQUOT, !dbmx_open("folder/three", O_RDWR | O_CREAT, 0644, NULL, &fault));
    CHECK(fault == 2 && size_of("folder/three.db") == 0);
    is_unsyncable = false;
    dbm_close(open_or_end("folder/three", O_RDWR | O_CREAT | O_EXCL));
}

/* so is that of a file which is made, or has no bytes, behind a symbolic link: where the file stands, and not where the link does */
static void links(void) {
    CHECK(!mkdir("elsewhere", 0755) && !symlink("elsewhere/made.db", "link.db") && !symlink("link.db", "twice.db"));
    synced = 0;
    dbm_close(open_or_end("twice", O_RDWR | O_CREAT));
    CHECK(synced && synced == inode_of("elsewhere") && size_of("elsewhere/made.db") > 0);
    synced = 0;
    dbm_close(open_or_end("link", O_RDWR | O_CREAT));
    CHECK(!synced);
    write_file("elsewhere/blank.db", "", 0, 0644);
    CHECK(!symlink("../elsewhere/blank.db", "folder/blank.db"));
    is_unsyncable = true;
    FAILS(EDQUOT, !dbm_open("folder/blank", O_RDWR | O_CREAT, 0644));
    is_unsyncable = false;
    synced = 0;
    dbm_close(open_or_end("folder/blank", O_RDWR | O_CREAT));
    CHECK(synced && synced == inode_of("elsewhere") && size_of("elsewhere/blank.db") > 0);
}

int main(void) {
    int before = open_descriptors();
    folders();
    links();
    CHECK(open_descriptors() == before);
    return bad;
}
