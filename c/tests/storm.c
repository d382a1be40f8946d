/*
 * storm SEED SECONDS [wild]: three threads do what they hit on, in an order that the seed gives: open, call, copy, close, pass, make,
 * revoke, attach, fork. Several of them at once, some of which are killed, are there to make histories that no other program makes. What
 * comes of each call is not looked at, but for an answer that is not that of its request. A wild one also closes numbers that are not its own,
 * under whoever has them.
 */
#define _GNU_SOURCE 1
#include "test.h"

#include <time.h>

enum { KEPT = 6, THREADS = 3 };

static time_t end;
static int is_wild;

struct hand {
	unsigned long state;
	int own; /* numbers from here on are this thread's alone */
	int kept[KEPT];
};

static unsigned next(struct hand *hand, unsigned below)
{
	hand->state = hand->state * 6364136223846793005ul + 1442695040888963407ul;
	return (unsigned)(hand->state >> 33) % below;
}

static void serve(void *cookie, char *argument, size_t size, door_desc_t *descriptors, uint_t descriptor_count)
{
	static __thread char answer[4096];
	static _Thread_local unsigned count;

	(void)cookie;
	if (argument == DOOR_UNREF_DATA)
		door_return(NULL, 0, NULL, 0);
	while (descriptor_count > 0)
		close(descriptors[--descriptor_count].d_data.d_desc.d_descriptor);
	if (size > sizeof(answer))
		size = 0;
	memcpy(answer, argument, size);
	count++;
	if (count % 31 == 0)
		usleep(2000);
	if (count % 500 == 499)
		pthread_exit(NULL);
	door_return(answer, size, NULL, 0);
}

static void keep(struct hand *hand, int descriptor)
{
	unsigned place = next(hand, KEPT);

	if (hand->kept[place] != -1)
		close(hand->kept[place]);
	hand->kept[place] = descriptor;
}

static const char *path(struct hand *hand)
{
	static const char *const paths[] = { "a", "b", "c" };

	return paths[next(hand, 3)];
}

static void call(struct hand *hand, int door)
{
	char sent[2000], came[1000];
	size_t i, size = next(hand, 10) == 0 ? next(hand, sizeof(sent)) : next(hand, 40);
	door_desc_t one;
	door_arg_t it = { sent, size, NULL, 0, came, sizeof(came) };

	for (i = 0; i < size; i++)
		sent[i] = (char)next(hand, 256);
	if (next(hand, 4) == 0) {
		memset(&one, 0, sizeof(one));
		one.d_attributes = DOOR_DESCRIPTOR | (next(hand, 2) == 0 ? DOOR_RELEASE : 0);
		one.d_data.d_desc.d_descriptor = fcntl(next(hand, 2) == 0 ? STDIN_FILENO : hand->kept[next(hand, KEPT)], F_DUPFD, hand->own);
		it.desc_ptr = &one;
		it.desc_num = 1;
	}
	if (door_call(door, &it) == -1)
		it.data_size = size + 1;
	/* what was released is closed already, or the call was refused */
	close(hand->own);
	if (it.data_size == size + 1)
		return;
	check(is_wild || (it.data_size == size && (size == 0 || memcmp(it.data_ptr, sent, size) == 0)));
}

static void fork_once(struct hand *hand)
{
	pid_t child = fork();

	if (child == 0) {
		int door = open(path(hand), O_RDWR);

		call(hand, door);
		_exit(0);
	}
	if (child > 0)
		waitpid(child, NULL, 0);
}

static void do_something(struct hand *hand)
{
	unsigned place = next(hand, KEPT);
	int it = hand->kept[place];
	door_info_t info;
	static const uint_t attributes[] = { 0, 0, DOOR_UNREF, DOOR_UNREF_MULTI, DOOR_REFUSE_DESC, DOOR_NO_CANCEL };

	if (is_wild && next(hand, 20) == 0)
		close(3 + (int)next(hand, 30));
	switch (next(hand, 16)) {
	case 0:
		keep(hand, door_create(serve, hand, attributes[next(hand, 6)]));
		break;
	case 1:
		fattach(it, path(hand));
		break;
	case 2:
		fdetach(path(hand));
		break;
	case 3:
		/* its descriptor is closed with it */
		if (next(hand, 10) == 0 && door_revoke(it) == 0)
			hand->kept[place] = -1;
		break;
	case 4:
		door_info(it, &info);
		break;
	case 5:
		keep(hand, dup(it));
		break;
	case 6:
		if (next(hand, 10) == 0)
			fork_once(hand);
		break;
	case 7:
	case 8:
		keep(hand, open(path(hand), O_RDWR));
		break;
	default:
		if (door_info(it, &info) == 0)
			call(hand, it);
	}
}

static void *act(void *seed)
{
	struct hand hand = { (unsigned long)(uintptr_t)seed * 977 + 13, 200 + 10 * (int)((uintptr_t)seed % 10), { -1, -1, -1, -1, -1, -1 } };
	int i;

	for (i = 0; time(NULL) < end; i++)
		do_something(&hand);
	for (i = 0; i < KEPT; i++)
		close(hand.kept[i]);
	return NULL;
}

/* A call that nobody will ever answer is broken off. */
static void break_off(int number) { (void)number; }

int main(int argc, char **argv)
{
	pthread_t thread[THREADS];
	struct sigaction action;
	int i, seed = argc > 1 ? atoi(argv[1]) : 1;

	memset(&action, 0, sizeof(action));
	action.sa_handler = break_off;
	sigaction(SIGUSR1, &action, NULL);
	is_wild = argc > 3;
	end = time(NULL) + (argc > 2 ? atoi(argv[2]) : 1);
	for (i = 0; i < 3; i++)
		touch(i == 0 ? "a" : i == 1 ? "b" : "c");
	for (i = 0; i < THREADS; i++)
		thread[i] = thread_of(act, (void *)(uintptr_t)(seed * 10 + i));
	for (i = 0; i < THREADS; i++) {
		struct timespec soon;

		do {
			clock_gettime(CLOCK_REALTIME, &soon);
			soon.tv_nsec += 100000000;
			soon.tv_sec += soon.tv_nsec / 1000000000;
			soon.tv_nsec %= 1000000000;
			if (time(NULL) > end)
				pthread_kill(thread[i], SIGUSR1);
		} while (pthread_timedjoin_np(thread[i], NULL, &soon) == ETIMEDOUT);
	}
	return 0;
}
