/*
 * serve [-p THREADS] [-u] [-m] [-r] [-c] [-] PATH ..: a server that does what its clients ask for.
 *
 * Each PATH gets a door of its own, whose cookie is its number from 1. Options count for the paths after them: -p, a private door with so
 * many threads; -u DOOR_UNREF, -m DOOR_UNREF_MULTI, -r DOOR_REFUSE_DESC, -c DOOR_NO_CANCEL; `-` takes them back. When a door is
 * unreferenced it prints `PATH unreferenced`.
 *
 * A request is a line of words:
 *   echo TEXT              answers TEXT
 *   hold FILE TEXT         waits until FILE is there, and answers TEXT
 *   say FILE TEXT          the same, and prints TEXT first
 *   thread                 answers which thread serves, counted from 1
 *   pid, cred              answers its own pid; the pid and the ids of the client
 *   size N                 answers N bytes
 *   call PATH REQUEST      opens PATH, calls the door there, and answers what it answered, or the name of the error
 *   exit, fall             its thread ends by pthread_exit; by the end of the procedure
 *   quit N, crash          its process ends with the status N; by SIGKILL
 *   revoke N, detach PATH  the door N is revoked; a path is detached
 */
#include "test.h"

enum { DOORS = 16, ROOM = 4096 };

static struct {
	const char *path[DOORS];
	int door[DOORS];
	int count;
} served;

/* The number of the calling thread, among those that asked. */
static int thread_number(void)
{
	static pthread_mutex_t lock = PTHREAD_MUTEX_INITIALIZER;
	static int count;
	static __thread int number;

	pthread_mutex_lock(&lock);
	if (number == 0)
		number = ++count;
	pthread_mutex_unlock(&lock);
	return number;
}

/* The word at the place, ended by a zero byte; the place moves behind the blank after it. */
static char *word(char **place)
{
	char *found = *place, *end = strchr(found, ' ');

	if (end == NULL) {
		*place = found + strlen(found);
	} else {
		*end = '\0';
		*place = end + 1;
	}
	return found;
}

static void give_number(const char *what, long number)
{
	char text[64];

	snprintf(text, sizeof(text), "%s%ld", what, number);
	give(text);
}

static void give_client(void)
{
	door_cred_t client;
	char text[128];

	if (door_cred(&client) == -1)
		give(error_name(errno));
	snprintf(text, sizeof(text), "pid %d euid %d egid %d ruid %d rgid %d", (int)client.dc_pid, (int)client.dc_euid, (int)client.dc_egid,
		(int)client.dc_ruid, (int)client.dc_rgid);
	give(text);
}

static void give_bytes(size_t size)
{
	char *bytes = malloc(size + 1);

	if (bytes == NULL)
		give("no memory");
	memset(bytes, 'x', size);
	door_return(bytes, size, NULL, 0);
	say("size %zu: %s", size, error_name(errno));
	give("not returned");
}

static void give_other(const char *path, const char *request)
{
	char answer[ROOM];
	int error, door = open(path, O_RDWR);

	if (door == -1)
		give(error_name(errno));
	error = ask(door, request, answer, sizeof(answer));
	close(door);
	give(error == 0 ? answer : error_name(error));
}

static void give_result(int answer) { give(answer == 0 ? "ok" : error_name(errno)); }

/* Does one request; whatever answers does not come back. */
static void request_of(char *place)
{
	char *verb = word(&place);

	if (strcmp(verb, "echo") == 0)
		give(place);
	if (strcmp(verb, "hold") == 0 || strcmp(verb, "say") == 0) {
		wait_for(word(&place));
		if (strcmp(verb, "say") == 0)
			say("%s", place);
		give(place);
	}
	if (strcmp(verb, "thread") == 0)
		give_number("thread ", thread_number());
	if (strcmp(verb, "pid") == 0)
		give_number("", getpid());
	if (strcmp(verb, "cred") == 0)
		give_client();
	if (strcmp(verb, "size") == 0)
		give_bytes(strtoul(place, NULL, 10));
	if (strcmp(verb, "call") == 0) {
		char *path = word(&place);

		give_other(path, place);
	}
	if (strcmp(verb, "exit") == 0)
		pthread_exit(NULL);
	if (strcmp(verb, "fall") == 0)
		return;
	if (strcmp(verb, "quit") == 0)
		exit(atoi(place));
	if (strcmp(verb, "crash") == 0)
		kill(getpid(), SIGKILL);
	if (strcmp(verb, "revoke") == 0)
		give_result(door_revoke(served.door[atoi(place) - 1]));
	if (strcmp(verb, "detach") == 0)
		give_result(fdetach(place));
	give("what?");
}

static void serve(void *cookie, char *argument, size_t size, door_desc_t *descriptors, uint_t descriptor_count)
{
	char text[ROOM + 1];

	(void)descriptors;
	(void)descriptor_count;
	if (argument == DOOR_UNREF_DATA) {
		say("%s unreferenced", served.path[(uintptr_t)cookie - 1]);
		door_return(NULL, 0, NULL, 0);
	}
	if (size > ROOM)
		give("too long");
	memcpy(text, argument, size);
	text[size] = '\0';
	request_of(text);
}

static void *serve_privately(void *door)
{
	if (door_bind((int)(intptr_t)door) == -1)
		give_up("door_bind");
	door_return(NULL, 0, NULL, 0);
	/* its door was revoked */
	return NULL;
}

static void add(const char *path, uint_t attributes, int threads)
{
	int i, door;

	if (served.count == DOORS)
		exit(2);
	served.path[served.count++] = path;
	door = door_create(serve, (void *)(uintptr_t)served.count, attributes);
	if (door == -1)
		give_up("door_create");
	served.door[served.count - 1] = door;
	for (i = 0; i < threads; i++)
		pthread_detach(thread_of(serve_privately, (void *)(intptr_t)door));
	touch(path);
	if (fattach(door, path) == -1)
		give_up("fattach");
}

int main(int argc, char **argv)
{
	int i, threads = 0;
	uint_t attributes = 0;

	for (i = 1; i < argc; i++) {
		if (strcmp(argv[i], "-p") == 0 && i + 1 < argc) {
			attributes |= DOOR_PRIVATE;
			threads = atoi(argv[++i]);
		} else if (strcmp(argv[i], "-u") == 0) {
			attributes |= DOOR_UNREF;
		} else if (strcmp(argv[i], "-m") == 0) {
			attributes |= DOOR_UNREF_MULTI;
		} else if (strcmp(argv[i], "-r") == 0) {
			attributes |= DOOR_REFUSE_DESC;
		} else if (strcmp(argv[i], "-c") == 0) {
			attributes |= DOOR_NO_CANCEL;
		} else if (strcmp(argv[i], "-") == 0) {
			attributes = 0;
			threads = 0;
		} else {
			add(argv[i], attributes, threads);
		}
	}
	for (;;)
		pause();
}
