/* creds: door_cred(3C) outside of a call, after one, and in a notice, which nobody made; and in a call of the same process. */
#include "test.h"

static void serve(void *cookie, char *argument, size_t size, door_desc_t *descriptors, uint_t descriptor_count)
{
	door_cred_t client;

	(void)cookie;
	(void)size;
	(void)descriptors;
	(void)descriptor_count;
	if (argument == DOOR_UNREF_DATA) {
		fails(door_cred(&client), EINVAL);
		touch("noticed");
		give("");
	}
	check(door_cred(&client) == 0 && client.dc_pid == getpid());
	check(client.dc_euid == geteuid() && client.dc_egid == getegid() && client.dc_ruid == getuid() && client.dc_rgid == getgid());
	give("ok");
}

int main(void)
{
	door_cred_t client;
	char answer[8];
	int door;

	fails(door_cred(&client), EINVAL);
	door = door_create(serve, NULL, DOOR_UNREF);
	fails(door_cred(&client), EINVAL);
	check(ask(door, "x", answer, sizeof(answer)) == 0);
	fails(door_cred(&client), EINVAL);
	close(dup(door));
	wait_for("noticed");
	say("done");
	return 0;
}
