/* What the environment says to programs that can't be changed. One with rights that its caller has not doesn't look at it. */
#define _GNU_SOURCE
#include <stdlib.h>
#include <string.h>

#include "parts.h"

/* the most seconds that a wait may have */
enum { LONGEST_WAIT = 86400 };

unsigned ndbm_environment_wait(unsigned otherwise) {
    const char *text = secure_getenv("KUMQUATFEN_WAIT");
    unsigned seconds = 0;
    if (!text || !*text) return otherwise;
    for (; *text; text++) {
        if (*text < '0' || *text > '9') return otherwise;
        seconds = seconds * 10 + (unsigned)(*text - '0');
        if (seconds > LONGEST_WAIT) return otherwise;
    }
    return seconds;
}

static bool says(const char *name, const char *word) {
    const char *text = secure_getenv(name);
    return text && !strcmp(text, word);
}

bool ndbm_environment_shares(void) {
    return says("KUMQUATFEN_SHARED", "1");
}

bool ndbm_environment_builds(void) {
    return says("KUMQUATFEN_BUILD", "1");
}

bool ndbm_environment_has_two_names(void) {
#ifdef KUMQUATFEN_NAMES_PAG
    return !says("KUMQUATFEN_NAMES", "db");
#else
    return says("KUMQUATFEN_NAMES", "pag");
#endif
}
