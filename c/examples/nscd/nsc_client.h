/*
 * nsc_client.h: look-ups by name and by number, as getpwnam_r(3C) and its kin have them. They ask nscd, and where no nscd answers they look
 * into the file. 0, with *result NULL where there is no such entry, or the number of an error: ERANGE where the buffer is too small.
 */
#ifndef NSC_CLIENT_H
#define NSC_CLIENT_H

#include <grp.h>
#include <pwd.h>
#include <stdbool.h>
#include <sys/types.h>

#include "nsc_door.h"

/* The folder of the files and of the door: /etc where nothing else is said. Called before the first look-up. */
int nsc_use_folder(const char *folder);

int nsc_getpwnam_r(const char *name, struct passwd *entry, char *buffer, size_t size, struct passwd **result);
int nsc_getpwuid_r(uid_t uid, struct passwd *entry, char *buffer, size_t size, struct passwd **result);
int nsc_getgrnam_r(const char *name, struct group *entry, char *buffer, size_t size, struct group **result);
int nsc_getgrgid_r(gid_t gid, struct group *entry, char *buffer, size_t size, struct group **result);

/* Whether nscd answered this thread's last look-up. */
bool nsc_was_cached(void);

/*
 * One call of nscd. -1 and errno where none answers, else its status. *results is of *size bytes, with a null byte behind them; the caller
 * frees it. For nscd's own options, and for all of the above.
 */
int nsc_call(nsc_call_t call, const char *key, char **results, size_t *size);

#endif
