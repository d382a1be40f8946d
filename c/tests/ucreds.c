/*
 * ucreds PATH: door_ucred(3C) as daemons use it, for a client that is another process: with memory of the library's,
 * which is used again, and with memory of its own. Outside of a call there is nobody to ask for. Prints `done` once
 * the file `asked` is there.
 */
#include <alloca.h>
#include <stropts.h>
#include <ucred.h>

#include "test.h"

static void check_ids(const ucred_t *ucred)
{
	door_cred_t cred;
	const gid_t *groups;

	check(door_cred(&cred) == 0);
	check(ucred_getpid(ucred) == cred.dc_pid && cred.dc_pid != getpid());
	check(ucred_geteuid(ucred) == cred.dc_euid && ucred_getruid(ucred) == cred.dc_ruid && cred.dc_euid == geteuid());
	check(ucred_getegid(ucred) == cred.dc_egid && ucred_getrgid(ucred) == cred.dc_rgid && cred.dc_egid == getegid());
	errno = 0;
	check(ucred_getsuid(ucred) == (uid_t)-1 && errno == EINVAL);
	errno = 0;
	check(ucred_getsgid(ucred) == (gid_t)-1 && errno == EINVAL);
	fails(ucred_getgroups(ucred, &groups), EINVAL);
}

/* Which id is which: here they are all the same user's, so in a result whose bytes are written as door_cred(3C) has them. */
static void check_words(void)
{
	static const door_cred_t cred = { .dc_euid = 1, .dc_egid = 2, .dc_ruid = 3, .dc_rgid = 4, .dc_pid = 5 };
	ucred_t *ucred = alloca(ucred_size());

	check(ucred_size() == sizeof(cred));
	memcpy(ucred, &cred, sizeof(cred));
	check(ucred_geteuid(ucred) == 1 && ucred_getegid(ucred) == 2 && ucred_getruid(ucred) == 3 && ucred_getrgid(ucred) == 4);
	check(ucred_getpid(ucred) == 5);
}

static void serve(void *cookie, char *argument, size_t size, door_desc_t *descriptors, uint_t descriptor_count)
{
	ucred_t *ucred = NULL, *first, *mine = alloca(ucred_size());

	(void)cookie, (void)argument, (void)size, (void)descriptors, (void)descriptor_count;
	check(door_ucred(&ucred) == 0 && ucred != NULL);
	check_ids(ucred);
	first = ucred;
	memset(ucred, 0xff, ucred_size());
	check(door_ucred(&ucred) == 0 && ucred == first);
	check_ids(ucred);
	ucred_free(ucred);
	first = mine;
	check(door_ucred(&mine) == 0 && mine == first);
	check_ids(mine);
	give("ok");
}

int main(int count, char **word)
{
	ucred_t *ucred = NULL;
	int door;

	check(count == 2);
	fails(door_ucred(&ucred), EINVAL);
	check(ucred == NULL);
	fails(door_ucred(NULL), EFAULT);
	door = door_create(serve, NULL, 0);
	fails(door_ucred(&ucred), EINVAL);
	ucred_free(NULL);
	check_words();
	touch(word[1]);
	check(fattach(door, word[1]) == 0);
	wait_for("asked");
	say("done");
	return 0;
}
