/*
 * firsts TIMES: so many times a process whose first requests of two threads and a fork by a third come at once. Each thread, and the child
 * of the fork, is answered.
 */
#include "test.h"

enum { THREADS = 3 };

static pthread_barrier_t start;

static int calls_well(const char *text)
{
	char request[64], answer[64];
	int door = open("w", O_RDWR), error;

	snprintf(request, sizeof(request), "echo %s", text);
	error = ask(door, request, answer, sizeof(answer));
	/* a fork ends the calls of the other threads, if they had descriptors to hand on */
	check((error == 0 && strcmp(answer, text) == 0) || error == EINTR);
	return close(door) == 0;
}

static void *call(void *text)
{
	pthread_barrier_wait(&start);
	check(calls_well(text));
	return NULL;
}

static void *fork_once(void *text)
{
	pid_t child;

	pthread_barrier_wait(&start);
	child = fork();
	if (child == 0) {
		check(calls_well(text));
		_exit(0);
	}
	/* where the other threads have opened their doors already, and there is no child in store */
	check(child != -1 || errno == EAGAIN);
	if (child != -1)
		check(end_of(child) == 0);
	return NULL;
}

static int process(void)
{
	pthread_t thread[THREADS];
	static char words[THREADS][8] = { "one", "two", "three" };
	int i;

	pthread_barrier_init(&start, NULL, THREADS);
	for (i = 0; i < THREADS; i++)
		thread[i] = thread_of(i == 1 ? fork_once : call, words[i]);
	for (i = 0; i < THREADS; i++)
		pthread_join(thread[i], NULL);
	return 0;
}

int main(int argc, char **argv)
{
	int i, times = argc > 1 ? atoi(argv[1]) : 50;

	for (i = 0; i < times; i++)
		check(end_of(beside(process)) == 0);
	say("done");
	return 0;
}
