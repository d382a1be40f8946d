/*
 * itself [-p] [-l] THREADS REQUEST ..: a server whose threads are its own: main, and THREADS - 1 that have signals kept off. When SIGUSR1
 * comes while main waits in door_return, its handler calls the server's own door with each REQUEST, and prints what it answers. -p: the door
 * is private, and main is bound to it. -l: the handler then leaves by siglongjmp, and main calls the door, and waits again.
 *
 * A request is a line of words:
 *   who        answers which thread serves: main or another
 *   hold FILE  makes FILE_held, waits until FILE is there, and then is as who
 *   large      returns too many bytes, which is refused; and then is as who
 *   passed     the same as who, with a descriptor of the door that is released
 *   again      raises a signal whose handler calls with who, and then is as who
 *   nest       calls the door with who, and answers what that answered
 *   stay FILE  is no call: the handler waits until FILE is there
 *   fall       ends by the end of the procedure
 */
#include "test.h"

#include <setjmp.h>

static int door, requests, leaves;
static char **request;
static pthread_t main_thread;
static sigjmp_buf place;

static void answer_who(char *passed)
{
	const char *who = pthread_equal(pthread_self(), main_thread) ? "main" : "another";
	door_desc_t one;

	memset(&one, 0, sizeof(one));
	one.d_attributes = DOOR_DESCRIPTOR | DOOR_RELEASE;
	if (passed != NULL) {
		one.d_data.d_desc.d_descriptor = dup(door);
		check(one.d_data.d_desc.d_descriptor != -1);
	}
	door_return((char *)(uintptr_t)who, strlen(who), passed != NULL ? &one : NULL, passed != NULL);
	say("door_return: %s", error_name(errno));
}

static void nest(void)
{
	char answer[64];

	if (ask(door, "who", answer, sizeof(answer)) == 0)
		door_return(answer, strlen(answer), NULL, 0);
}

static void serve(void *cookie, char *argument, size_t size, door_desc_t *descriptors, uint_t descriptor_count)
{
	static char large[5000];
	char text[64], held[80];

	(void)cookie;
	(void)descriptors;
	(void)descriptor_count;
	snprintf(text, sizeof(text), "%.*s", (int)size, argument);
	if (strncmp(text, "hold ", 5) == 0) {
		snprintf(held, sizeof(held), "%s_held", text + 5);
		touch(held);
		wait_for(text + 5);
	}
	if (strcmp(text, "large") == 0) {
		door_return(large, sizeof(large), NULL, 0);
		check(errno == E2BIG);
	}
	if (strcmp(text, "nest") == 0)
		nest();
	if (strcmp(text, "fall") != 0)
		answer_who(strcmp(text, "passed") == 0 ? text : NULL);
}

static void call(const char *from, const char *text)
{
	char answer[256];
	door_arg_t call = { (char *)(uintptr_t)text, strlen(text), NULL, 0, answer, sizeof(answer) };

	if (door_call(door, &call) == -1) {
		say("%s: %s: %s", from, text, error_name(errno));
		return;
	}
	say("%s: %s: %.*s", from, text, (int)call.data_size, call.data_ptr);
	if (call.desc_num == 1)
		check(close(call.desc_ptr[0].d_data.d_desc.d_descriptor) == 0);
}

static void call_too(int number)
{
	(void)number;
	call("inner", "who");
}

static void handle(int number)
{
	int i;

	(void)number;
	for (i = 0; i < requests; i++) {
		if (strncmp(request[i], "stay ", 5) == 0)
			wait_for(request[i] + 5);
		else if (strcmp(request[i], "again") == 0 && raise(SIGUSR2) == 0)
			call("handler", "who");
		else
			call("handler", request[i]);
	}
	touch("handled");
	if (leaves)
		siglongjmp(place, 1);
}

static void make_none(door_info_t *info) { (void)info; }

static void *wait_for_calls(void *unused)
{
	sigset_t both;

	sigemptyset(&both);
	sigaddset(&both, SIGUSR1);
	sigaddset(&both, SIGUSR2);
	pthread_sigmask(SIG_BLOCK, &both, NULL);
	door_return(NULL, 0, NULL, 0);
	say("door_return: %s", error_name(errno));
	return unused;
}

static void set_handler(int number, void (*handler)(int))
{
	struct sigaction action;

	memset(&action, 0, sizeof(action));
	action.sa_handler = handler;
	check(sigaction(number, &action, NULL) == 0);
}

int main(int argc, char **argv)
{
	int is_private = 0, option, i;

	while ((option = getopt(argc, argv, "pl")) != -1) {
		is_private |= option == 'p';
		leaves |= option == 'l';
	}
	main_thread = pthread_self();
	door_server_create(make_none);
	door = serve_at("itself", serve, NULL, is_private ? DOOR_PRIVATE : 0);
	check(!is_private || door_bind(door) == 0);
	for (i = 1; i < atoi(argv[optind]); i++)
		thread_of(wait_for_calls, NULL);
	request = argv + optind + 1;
	requests = argc - optind - 1;
	set_handler(SIGUSR1, handle);
	set_handler(SIGUSR2, call_too);
	if (sigsetjmp(place, 1) != 0)
		call("main", "who");
	door_return(NULL, 0, NULL, 0);
	say("door_return: %s", error_name(errno));
	return 1;
}
