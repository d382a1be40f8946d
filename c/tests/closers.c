/*
 * closers: a door's descriptor that one thread uses while another closes it.
 *
 * `closers mixed TIMES`: the number that a thread calls is a door's, a file's or closed, by turns, and the kernel's number behind it becomes
 * that of another door: the thread never comes to that one, by a call, a message, door_info(3C) or dup(2). `closers calls PATH FILE`: a call that has begun goes on when its descriptor is
 * closed, once FILE is there, and the number is used again. `closers held PATH`: so is that of a call that doord holds back, and the call does not
 * go to the door `w`, which has its number then, here and in the kernel.
 */
#define _GNU_SOURCE 1
#include "test.h"

enum { NUMBER = 60 };

static volatile sig_atomic_t over;
static int wrong_door, right, closed;

static void serve(void *cookie, char *argument, size_t size, door_desc_t *descriptors, uint_t descriptor_count)
{
	(void)argument;
	(void)size;
	if (descriptor_count == 1) {
		door_info_t info;

		/* what came is the first door, or a file */
		if (door_info(descriptors[0].d_data.d_desc.d_descriptor, &info) == 0 && info.di_data != 0)
			give("second came");
		close(descriptors[0].d_data.d_desc.d_descriptor);
	}
	give(cookie == NULL ? "first" : "second");
}

static int server(void)
{
	serve_at("first", serve, NULL, 0);
	serve_at("second", serve, (void *)1, 0);
	return pause_for_good();
}

static void came(int error, const char *answer)
{
	if (error == EBADF)
		closed++;
	else if (error == 0 && strcmp(answer, "first") == 0)
		right++;
	else
		wrong_door++;
}

static void *call(void *unused)
{
	char answer[64];

	while (!over)
		came(ask(NUMBER, "", answer, sizeof(answer)), answer);
	return unused;
}

/* The number goes with a call of the first door, as an argument. */
static void *pass(void *door)
{
	char answer[64];

	while (!over) {
		door_desc_t one;
		door_arg_t argument = { NULL, 0, &one, 1, answer, sizeof(answer) - 1 };
		int error;

		memset(&one, 0, sizeof(one));
		one.d_attributes = DOOR_DESCRIPTOR;
		one.d_data.d_desc.d_descriptor = NUMBER;
		memset(answer, 0, sizeof(answer));
		error = door_call((int)(intptr_t)door, &argument) == -1 ? errno : 0;
		/* of a descriptor that is none the kernel says EINVAL */
		came(error == EINVAL ? EBADF : error, answer);
	}
	return NULL;
}

/* What is told of the number, and of a copy of it, is told of the first door, or of none. */
static void *look(void *unused)
{
	while (!over) {
		door_info_t info = { .di_data = 0 };
		int copy;

		came(door_info(NUMBER, &info) == -1 ? errno : 0, info.di_data == 0 ? "first" : "second");
		copy = dup(NUMBER);
		if (copy == -1)
			continue;
		came(door_info(copy, &info) == -1 ? errno : 0, info.di_data == 0 ? "first" : "second");
		check(close(copy) == 0);
	}
	return unused;
}

/* The number is the first door's, closed, a file's; and what it was in the kernel is the second's. */
static void change(int first, int file)
{
	char answer[64];
	int second;

	check(dup2(first, NUMBER) == NUMBER);
	check(ask(first, "", answer, sizeof(answer)) == 0);
	check(close(NUMBER) == 0);
	second = open("second", O_RDWR);
	check(dup2(file, NUMBER) == NUMBER);
	check(ask(second, "", answer, sizeof(answer)) == 0 && strcmp(answer, "second") == 0);
	check(close(NUMBER) == 0);
	check(close(second) == 0);
}

static void mixed(int times)
{
	pid_t process = beside(server);
	int i, first = door_at("first"), second = door_at("second"), file = open("/dev/null", O_RDWR);
	pthread_t thread[3];
	size_t at;

	check(close(second) == 0);
	thread[0] = thread_of(call, NULL);
	thread[1] = thread_of(pass, (void *)(intptr_t)first);
	thread[2] = thread_of(look, NULL);
	for (i = 0; i < times; i++)
		change(first, file);
	over = 1;
	for (at = 0; at < 3; at++)
		pthread_join(thread[at], NULL);
	check(wrong_door == 0);
	if (wrong_door != 0)
		say("%d right, %d closed, %d of the other door", right, closed, wrong_door);
	kill(process, SIGKILL);
	end_of(process);
}

static int door;

static void *begin_call(void *unused)
{
	char answer[64];

	check(ask(door, "hold go begun", answer, sizeof(answer)) == 0 && strcmp(answer, "begun") == 0);
	return unused;
}

static void calls(const char *path, const char *begun)
{
	pthread_t thread;
	int number, file;
	char answer[64];

	number = door = open(path, O_RDWR);
	thread = thread_of(begin_call, NULL);
	wait_for(begun);
	check(close(number) == 0);
	fails(door_call(number, NULL), EBADF);
	file = open("file", O_CREAT | O_RDWR, 0644);
	check(file == number && write(file, "abc", 3) == 3);
	fails(door_call(number, NULL), EBADF);
	check(close(file) == 0 && open("w", O_RDWR) == number);
	check(ask(number, "echo another", answer, sizeof(answer)) == 0 && strcmp(answer, "another") == 0);
	touch("go");
	pthread_join(thread, NULL);
	check(ask(number, "echo after", answer, sizeof(answer)) == 0 && close(number) == 0);
}

static void *call_in_vain(void *unused)
{
	char answer[64];

	check(ask(door, "echo mine", answer, sizeof(answer)) == EBADF);
	return unused;
}

static void held(const char *path)
{
	pthread_t thread;
	int number;
	char answer[64];

	number = door = open(path, O_RDWR);
	thread = thread_of(call_in_vain, NULL);
	usleep(200000);
	check(close(number) == 0 && open("w", O_RDWR) == number);
	check(ask(number, "echo other", answer, sizeof(answer)) == 0 && strcmp(answer, "other") == 0);
	touch("go");
	pthread_join(thread, NULL);
}

int main(int argc, char **argv)
{
	if (argc == 3 && strcmp(argv[1], "held") == 0)
		held(argv[2]);
	else if (argc == 3 && strcmp(argv[1], "mixed") == 0)
		mixed(atoi(argv[2]));
	else if (argc == 4 && strcmp(argv[1], "calls") == 0)
		calls(argv[2], argv[3]);
	else
		return 2;
	say("done");
	return 0;
}
