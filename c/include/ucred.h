/*
 * ucred.h: the ids of a client, which door_ucred(3C) gets and the functions of ucred_get(3C) tell: pid, effective and
 * real ids. Zones, projects, privileges and labels are not here, and ucred_get itself is not.
 */
#ifndef _UCRED_H
#define _UCRED_H

#include <stddef.h>
#include <sys/types.h>

#ifdef __cplusplus
extern "C" {
#endif

typedef struct ucred_s ucred_t;

void ucred_free(ucred_t *);
size_t ucred_size(void);
pid_t ucred_getpid(const ucred_t *);
uid_t ucred_geteuid(const ucred_t *);
uid_t ucred_getruid(const ucred_t *);
gid_t ucred_getegid(const ucred_t *);
gid_t ucred_getrgid(const ucred_t *);

/* what doord is not told: -1 and EINVAL */
uid_t ucred_getsuid(const ucred_t *);
gid_t ucred_getsgid(const ucred_t *);
int ucred_getgroups(const ucred_t *, const gid_t **);

#ifdef __cplusplus
}
#endif

#endif
