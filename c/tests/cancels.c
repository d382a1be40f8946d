/*
 * cancels PATH OTHER: a server whose threads have cancellation enabled. Where a client leaves, the thread is cancelled:
 * its cleanup handlers and destructors run, and the destructor calls a door. OTHER has DOOR_NO_CANCEL: nobody is
 * cancelled. A request says how the procedure waits; the file of its name is made when it does, and the file gone_NAME
 * when its thread has been cancelled.
 *   pause      in pause(2)
 *   condition  in pthread_cond_wait(3), whose mutex a cleanup handler gives back
 *   spin       in no point of cancellation, but cancelled at once
 *   return     in none, so door_return is the first
 *   late       with cancellation disabled, until the file go is there
 *   off        with it disabled, until the file on is there; then it returns, with it disabled
 *   keep       in points of cancellation, until the file kept is there; then it returns
 *   enabled    does not wait: it enables cancellation, and passes a point of cancellation
 */
#include "test.h"

#include <sched.h>

static pthread_mutex_t mutex = PTHREAD_MUTEX_INITIALIZER;
static pthread_cond_t condition = PTHREAD_COND_INITIALIZER;
static pthread_key_t key;
static _Atomic int door;
static int hanging;
static _Thread_local char name[16];

static void clean_up(void *unused)
{
	(void)unused;
	say("%s: cleanup", name);
}

static void give_back(void *unused)
{
	(void)unused;
	pthread_mutex_unlock(&mutex);
}

static void destroy(void *value)
{
	char answer[64], file[32];

	(void)value;
	if (name[0] == '\0')
		return;
	check(ask(door, "enabled", answer, sizeof(answer)) == 0 && strcmp(answer, "enabled") == 0);
	say("%s: destructor", name);
	snprintf(file, sizeof(file), "gone_%s", name);
	touch(file);
}

static void wait_at_condition(void)
{
	pthread_mutex_lock(&mutex);
	pthread_cleanup_push(give_back, NULL);
	touch(name);
	while (hanging)
		pthread_cond_wait(&condition, &mutex);
	pthread_cleanup_pop(1);
}

static void spin_until(const char *file)
{
	touch(name);
	while (!is_there(file))
		sched_yield();
}

static void spin(void)
{
	static volatile unsigned long rounds;

	touch(name);
	pthread_setcanceltype(PTHREAD_CANCEL_ASYNCHRONOUS, NULL);
	for (;;)
		rounds++;
}

static void wait_as_asked(void)
{
	if (strcmp(name, "pause") == 0) {
		touch(name);
		pause_for_good();
	} else if (strcmp(name, "condition") == 0) {
		wait_at_condition();
	} else if (strcmp(name, "spin") == 0) {
		spin();
	} else if (strcmp(name, "return") == 0) {
		spin_until("go");
	} else if (strcmp(name, "late") == 0 || strcmp(name, "off") == 0) {
		pthread_setcancelstate(PTHREAD_CANCEL_DISABLE, NULL);
		touch(name);
		wait_for(name[0] == 'l' ? "go" : "on");
		say("%s: goes on", name);
		if (name[0] == 'l')
			pthread_setcancelstate(PTHREAD_CANCEL_ENABLE, NULL);
	} else if (strcmp(name, "keep") == 0) {
		touch(name);
		wait_for("kept");
		say("%s: goes on", name);
	} else {
		pthread_setcancelstate(PTHREAD_CANCEL_ENABLE, NULL);
	}
	if (strcmp(name, "return") != 0)
		pthread_testcancel();
}

static void serve(void *cookie, char *argument, size_t size, door_desc_t *descriptors, uint_t descriptor_count)
{
	char answer[16];

	(void)cookie;
	(void)descriptors;
	(void)descriptor_count;
	if (size >= sizeof(name))
		size = sizeof(name) - 1;
	memcpy(name, argument, size);
	name[size] = '\0';
	pthread_cleanup_push(clean_up, NULL);
	wait_as_asked();
	memcpy(answer, name, sizeof(answer));
	if (strcmp(name, "return") == 0)
		give(answer);
	pthread_cleanup_pop(0);
	name[0] = '\0';
	give(answer);
}

static void *serve_all(void *unused)
{
	pthread_setspecific(key, &key);
	door_return(NULL, 0, NULL, 0);
	return unused;
}

static void make(door_info_t *info)
{
	check(info == NULL);
	pthread_detach(thread_of(serve_all, NULL));
}

int main(int argc, char **argv)
{
	if (argc != 3)
		return 2;
	hanging = 1;
	check(pthread_key_create(&key, destroy) == 0);
	door_server_create(make);
	door = serve_at(argv[1], serve, NULL, 0);
	serve_at(argv[2], serve, NULL, DOOR_NO_CANCEL);
	return pause_for_good();
}
