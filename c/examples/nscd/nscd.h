/* nscd.h: the parts of the daemon, a file each. */
#ifndef NSCD_H
#define NSCD_H

#include <stdbool.h>
#include <stddef.h>

#include "nsc_door.h"

/* nscd_log.c: a line at a time into a file, and onto the error stream while there is one. */
int log_open(const char *folder);
void log_line(const char *format, ...) __attribute__((format(printf, 1, 2)));

/* nscd_cache.c: what look-ups found, each for a time. */
typedef enum { CACHE_MISS, CACHE_HIT, CACHE_ABSENT } cache_answer_t;

void cache_begin(long positive_seconds, long negative_seconds);

/* The line, with its null byte, in at most SIZE bytes. After a miss *generation is what cache_put wants. */
cache_answer_t cache_get(nsc_call_t call, const char *key, char *line, size_t size, unsigned *generation);

/* A line of NULL says that there is no such entry. Nothing is kept where the cache was invalidated meanwhile, or where memory is wanting. */
void cache_put(nsc_call_t call, const char *key, const char *line, unsigned generation);
void cache_invalidate(nsc_database_t database);
void cache_count(nsc_counts_t counts[NSC_DATABASES]);

/* nscd_server.c: the door and its threads. Errors are -1, with a line in the log. */
int server_begin(const char *folder, int most_threads);

/* No further calls; those under way have so many seconds. */
void server_end(const char *folder, int seconds);

/* nscd_admin.c: the options by which an administrator asks the daemon that runs. The status of the process. */
int admin_statistics(void);
int admin_invalidate(const char *database);
int admin_shutdown(const char *folder);

/* nscd_lock.c: at most one daemon a folder. 0; -1 and errno; or the pid of the one that has it. */
int lock_take(const char *folder);
void lock_end(void);
void lock_wait(const char *folder);

#endif
