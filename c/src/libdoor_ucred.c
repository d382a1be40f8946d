/* libdoor_ucred.c: door_ucred(3C), and what ucred.h tells of its result. */
#include "libdoor.h"

#include <errno.h>
#include <stdlib.h>
#include <ucred.h>

struct ucred_s {
	door_cred_t cred;
};

/* The program may have memory of ucred_size() bytes, or the result of an earlier call. */
EXPORT int door_ucred(ucred_t **result)
{
	door_cred_t cred;

	if (!result) {
		errno = EFAULT;
		return -1;
	}
	if (door_cred(&cred) < 0)
		return -1;
	if (!*result)
		*result = malloc(sizeof **result);
	if (!*result)
		return -1;
	(*result)->cred = cred;
	return 0;
}

EXPORT void ucred_free(ucred_t *ucred)
{
	free(ucred);
}

EXPORT size_t ucred_size(void)
{
	return sizeof(struct ucred_s);
}

EXPORT pid_t ucred_getpid(const ucred_t *ucred)
{
	return ucred->cred.dc_pid;
}

EXPORT uid_t ucred_geteuid(const ucred_t *ucred)
{
	return ucred->cred.dc_euid;
}

EXPORT uid_t ucred_getruid(const ucred_t *ucred)
{
	return ucred->cred.dc_ruid;
}

EXPORT gid_t ucred_getegid(const ucred_t *ucred)
{
	return ucred->cred.dc_egid;
}

EXPORT gid_t ucred_getrgid(const ucred_t *ucred)
{
	return ucred->cred.dc_rgid;
}

static int not_told(void)
{
	errno = EINVAL;
	return -1;
}

EXPORT uid_t ucred_getsuid(const ucred_t *ucred)
{
	(void)ucred;
	return (uid_t)not_told();
}

EXPORT gid_t ucred_getsgid(const ucred_t *ucred)
{
	(void)ucred;
	return (gid_t)not_told();
}

EXPORT int ucred_getgroups(const ucred_t *ucred, const gid_t **groups)
{
	(void)ucred, (void)groups;
	return not_told();
}
