/*
 * crowds joined TIMES | detached TIMES | c11 TIMES: so many threads, of which each makes a call and ends. Some are there at a time; the
 * kernel's threads are lent to one after the other, and nothing is left of them.
 */
#include "test.h"

#include <threads.h>

enum { AT_ONCE = 4 };

static int door;
static tss_t on_end;
static int ended, answered;
static once_flag once = ONCE_FLAG_INIT;

static void call_with(long number)
{
	char request[64], answer[64];

	snprintf(request, sizeof(request), "echo %ld", number);
	check(ask(door, request, answer, sizeof(answer)) == 0 && strcmp(answer, request + 5) == 0);
	__atomic_fetch_add(&answered, 1, __ATOMIC_SEQ_CST);
}

static void *call(void *number)
{
	call_with((long)(intptr_t)number);
	return number;
}

static void joined(int times)
{
	pthread_t thread[AT_ONCE];
	void *result;
	int i, j;

	for (i = 0; i < times; i += AT_ONCE) {
		for (j = 0; j < AT_ONCE; j++)
			thread[j] = thread_of(call, (void *)(intptr_t)(i + j));
		for (j = 0; j < AT_ONCE; j++)
			check(pthread_join(thread[j], &result) == 0 && result == (void *)(intptr_t)(i + j));
	}
}

/* One that has answered may be there a moment longer, and then has its kernel's thread: EAGAIN is tried again. */
static void *call_and_leave(void *number)
{
	char answer[64];
	int error;

	do
		error = ask(door, "echo detached", answer, sizeof(answer));
	while (error == EAGAIN);
	check(error == 0 && strcmp(answer, "detached") == 0);
	__atomic_fetch_add(&answered, 1, __ATOMIC_SEQ_CST);
	return number;
}

static void detached(int times)
{
	pthread_attr_t attributes;
	pthread_t thread;
	int i;

	check(pthread_attr_init(&attributes) == 0 && pthread_attr_setdetachstate(&attributes, PTHREAD_CREATE_DETACHED) == 0);
	for (i = 0; i < times; i++) {
		while (i - __atomic_load_n(&answered, __ATOMIC_SEQ_CST) >= AT_ONCE)
			usleep(50);
		check(pthread_create(&thread, &attributes, call_and_leave, NULL) == 0);
	}
	while (__atomic_load_n(&answered, __ATOMIC_SEQ_CST) < times)
		usleep(1000);
}

static void call_at_end(void *number)
{
	call_with((long)(intptr_t)number);
	__atomic_fetch_add(&ended, 1, __ATOMIC_SEQ_CST);
}

static void make_key(void) { check(tss_create(&on_end, call_at_end) == thrd_success); }

static int call_in_c11(void *number)
{
	call_once(&once, make_key);
	check(tss_set(on_end, number) == thrd_success);
	call_with((long)(intptr_t)number);
	if ((intptr_t)number % 2 == 0)
		thrd_exit(7);
	return 8;
}

static void in_c11(int times)
{
	thrd_t thread;
	int i, result;

	for (i = 1; i <= times; i++) {
		check(thrd_create(&thread, call_in_c11, (void *)(intptr_t)i) == thrd_success);
		check(thrd_join(thread, &result) == thrd_success && result == (i % 2 == 0 ? 7 : 8));
	}
	check(ended == times);
}

int main(int argc, char **argv)
{
	int before, times = argc == 3 ? atoi(argv[2]) : 0;

	if (argc != 3)
		return 2;
	door = open("w", O_RDWR);
	call_with(0);
	answered = 0;
	before = descriptors_open();
	if (strcmp(argv[1], "joined") == 0)
		joined(times);
	else if (strcmp(argv[1], "detached") == 0)
		detached(times);
	else
		in_c11(times);
	check(descriptors_open() == before);
	say("%s: %d", argv[1], answered);
	return 0;
}
