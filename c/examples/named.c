/*
 * named NAMES ADMIN: answers names through a door, until an administrator tells it to take no new clients. Then it ends with the last
 * client that it has.
 *
 * The door at NAMES has DOOR_UNREF: when all descriptors but the one of this process are closed, and no path leads to the door, lookup()
 * runs once more, with DOOR_UNREF_DATA. The door at ADMIN is private: one thread, which is bound to it, serves it, and lookups never wait
 * for an administrator's call, nor it for them.
 */
#include <door.h>
#include <fcntl.h>
#include <pthread.h>
#include <stdio.h>
#include <stdlib.h>
#include <string.h>
#include <stropts.h>
#include <sys/stat.h>
#include <unistd.h>

static const char *names_path;
static int admin;

static const struct {
	const char *name, *address;
} table[] = {
	{ "root", "198.41.0.4" },
	{ "www", "192.0.2.80" },
	{ "mail", "192.0.2.25" },
};

static void fail(const char *what)
{
	perror(what);
	exit(1);
}

static const char *address_of(const char *name, size_t size)
{
	size_t i;

	for (i = 0; i < sizeof(table) / sizeof(table[0]); i++) {
		if (strlen(table[i].name) == size && memcmp(table[i].name, name, size) == 0)
			return table[i].address;
	}
	return "unknown";
}

/* Runs for each call of the door at NAMES, and once when the last client has gone. */
static void lookup(void *cookie, char *argument, size_t size, door_desc_t *descriptors, uint_t descriptor_count)
{
	char answer[64];
	int length;

	(void)cookie;
	(void)descriptors;
	(void)descriptor_count;
	if (argument == DOOR_UNREF_DATA)
		exit(0);
	length = snprintf(answer, sizeof(answer), "%s", address_of(argument, size));
	door_return(answer, (size_t)length, NULL, 0);
}

/* Runs for the administrator: no new clients from now on. */
static void control(void *cookie, char *argument, size_t size, door_desc_t *descriptors, uint_t descriptor_count)
{
	static char done[] = "no new clients";

	(void)cookie;
	(void)argument;
	(void)size;
	(void)descriptors;
	(void)descriptor_count;
	fdetach(names_path);
	door_return(done, strlen(done), NULL, 0);
}

/* The thread of the administrator's door. */
static void *administer(void *unused)
{
	(void)unused;
	if (door_bind(admin) == -1)
		fail("door_bind");
	door_return(NULL, 0, NULL, 0);
	fail("door_return");
	return NULL;
}

/* Attaches a door to a file, which is made where it is not there. */
static void publish(int door, const char *path, mode_t mode)
{
	int file = open(path, O_CREAT | O_RDWR, mode);

	if (file == -1)
		fail(path);
	close(file);
	if (fattach(door, path) == -1)
		fail("fattach");
}

int main(int argc, char **argv)
{
	int names;
	pthread_t thread;

	if (argc != 3) {
		fprintf(stderr, "usage: named NAMES ADMIN\n");
		return 2;
	}
	names_path = argv[1];
	names = door_create(lookup, NULL, DOOR_UNREF | DOOR_REFUSE_DESC);
	admin = door_create(control, NULL, DOOR_PRIVATE);
	if (names == -1 || admin == -1)
		fail("door_create");
	if (door_setparam(names, DOOR_PARAM_DATA_MAX, 32) == -1)
		fail("door_setparam");
	publish(names, argv[1], 0644);
	publish(admin, argv[2], 0600);
	if (pthread_create(&thread, NULL, administer, NULL) != 0) {
		fprintf(stderr, "named: no thread\n");
		return 1;
	}
	for (;;)
		pause();
}
