/*
 * abandons: results of a call that a handler of signals jumps away from. The server stops its client in the call, returns, and only then sends
 * it the signal and lets it go on, so that the results are there as the handler runs. However the call is left, the client's descriptors and
 * mappings are in the end as many as before, and so are the kernel's.
 *
 *   abandons serve PATH
 *   abandons call PATH TIMES   the most bytes of TIMES calls are 5,000 where doord takes so many, told by a fourth word
 */
#include "test.h"

#include <dirent.h>
#include <semaphore.h>
#include <setjmp.h>
#include <sys/mman.h>

enum { DOORS = 3, FILES = 2, ITEMS = DOORS + FILES, LONG = 5000 };

/* the server */

static int door;
static pid_t stopped;
static sem_t is_stopped;
static char bytes[LONG];

static void wait_until_stopped(pid_t pid)
{
	char path[64], state = 0;
	FILE *file;

	snprintf(path, sizeof(path), "/proc/%d/stat", (int)pid);
	while (state != 'T') {
		file = fopen(path, "re");
		if (file == NULL || fscanf(file, "%*d (%*[^)]) %c", &state) != 1)
			give_up(path);
		fclose(file);
	}
}

static void stop(pid_t pid, size_t size)
{
	door_desc_t item[ITEMS];
	int i, file = open("file", O_RDONLY);

	memset(item, 0, sizeof(item));
	for (i = 0; i < ITEMS; i++) {
		item[i].d_attributes = DOOR_DESCRIPTOR;
		item[i].d_data.d_desc.d_descriptor = i < DOORS ? door : file;
	}
	item[ITEMS - 1].d_attributes |= DOOR_RELEASE;
	item[ITEMS - 1].d_data.d_desc.d_descriptor = dup(file);
	close(file);
	item[ITEMS - 2].d_data.d_desc.d_descriptor = STDIN_FILENO;
	stopped = pid;
	kill(pid, SIGSTOP);
	wait_until_stopped(pid);
	sem_post(&is_stopped);
	door_return(bytes, size, item, ITEMS);
	give_up("door_return");
}

/* The one thread that serves has returned from the call before: its results are there. */
static void go_on(void)
{
	kill(stopped, SIGUSR1);
	kill(stopped, SIGCONT);
	give("");
}

static void serve(void *cookie, char *argument, size_t size, door_desc_t *descriptors, uint_t descriptor_count)
{
	int request[2];

	(void)cookie;
	(void)descriptors;
	(void)descriptor_count;
	if (size == sizeof(request)) {
		memcpy(request, argument, sizeof(request));
		stop(request[0], (size_t)request[1]);
	}
	if (size == 1)
		go_on();
	give("here");
}

static void serve_for_good(const char *path)
{
	char answer[8];

	sem_init(&is_stopped, 0, 0);
	touch("file");
	door = serve_at(path, serve, NULL, 0);
	for (;;) {
		while (sem_wait(&is_stopped) == -1)
			continue;
		check(ask(door, "g", answer, sizeof(answer)) == 0);
	}
}

/* the client */

/* what the handler does: jumps; makes a call and comes back; forks and comes back; or ends its thread */
enum way { JUMPS, CALLS, FORKS, ENDS, WAYS };

static sigjmp_buf place;
static enum way way;
static int size_of_results, base; /* how many descriptors there are, once that is known */
static pid_t child;
static char *stack;

static void handle(int number)
{
	char answer[64];

	(void)number;
	if (way == CALLS)
		check(ask(door, "where", answer, sizeof(answer)) == 0 && strcmp(answer, "here") == 0);
	else if (way == FORKS)
		child = fork();
	else
		siglongjmp(place, 1);
}

/* All that came is right, and is closed. */
static void see_results(const door_arg_t *call)
{
	char answer[64];
	uint_t i;

	check(call->data_size == (size_t)size_of_results && memcmp(call->data_ptr, bytes, call->data_size) == 0);
	check(call->desc_num == ITEMS);
	for (i = 0; i < call->desc_num; i++) {
		int fd = call->desc_ptr[i].d_data.d_desc.d_descriptor;
		if (i < DOORS)
			check(ask(fd, "where", answer, sizeof(answer)) == 0 && strcmp(answer, "here") == 0);
		check(close(fd) == 0);
	}
	check(munmap(call->rbuf, call->rsize) == 0);
}

static void call_once(void)
{
	int request[2] = { getpid(), size_of_results }, result;
	door_arg_t call = { (char *)request, sizeof(request), NULL, 0, NULL, 0 };

	if (sigsetjmp(place, 1) != 0)
		return;
	child = -1;
	result = door_call(door, &call);
	if (child == 0)
		_exit(result == -1 && errno == EINTR && (base == 0 || descriptors_open() == base) ? 0 : 1);
	check(result == 0 && (way == CALLS || way == FORKS));
	if (result == 0)
		see_results(&call);
	if (way == FORKS)
		check(end_of(child) == 0);
}

static void *call_in_thread(void *unused)
{
	stack_t own = { .ss_sp = stack, .ss_size = 65536 };
	sigset_t one;

	sigaltstack(&own, NULL);
	sigemptyset(&one);
	sigaddset(&one, SIGUSR1);
	pthread_sigmask(SIG_UNBLOCK, &one, NULL);
	call_once();
	return unused;
}

static void call_by(enum way how, int is_long, int is_on_stack)
{
	struct sigaction action = { .sa_handler = handle, .sa_flags = is_on_stack ? SA_ONSTACK : 0 };
	sigset_t one;

	way = how;
	size_of_results = is_long ? LONG : 100;
	sigaction(SIGUSR1, &action, NULL);
	if (way != ENDS) {
		call_once();
		return;
	}
	/* the signal is sent to the process, and is to come to the thread that ends without another request */
	sigemptyset(&one);
	sigaddset(&one, SIGUSR1);
	pthread_sigmask(SIG_BLOCK, &one, NULL);
	pthread_join(thread_of(call_in_thread, NULL), NULL);
	pthread_sigmask(SIG_UNBLOCK, &one, NULL);
}

static int lines_of(const char *path)
{
	FILE *file = fopen(path, "re");
	int letter, lines = 0;

	if (file == NULL)
		give_up(path);
	while ((letter = getc(file)) != EOF)
		lines += letter == '\n';
	fclose(file);
	return lines;
}

static int files_open(void)
{
	DIR *folder = opendir("/proc/self/fd");
	int count = 0;

	if (folder == NULL)
		give_up("/proc/self/fd");
	while (readdir(folder) != NULL)
		count++;
	closedir(folder);
	return count;
}

static int call_many(const char *path, int times, int is_long)
{
	int i, files, mappings;
	stack_t own = { .ss_size = 65536 };

	stack = malloc(65536);
	own.ss_sp = malloc(own.ss_size);
	sigaltstack(&own, NULL);
	door = door_at(path);
	/* what is made once is made */
	for (i = 0; i < 2 * WAYS; i++)
		call_by((enum way)(i % WAYS), is_long, i / WAYS);
	base = descriptors_open();
	files = files_open();
	mappings = lines_of("/proc/self/maps");
	for (i = 0; i < times; i++)
		call_by((enum way)(i % WAYS), is_long && i % 3 == 0, i / WAYS % 2);
	check(close(dup(door)) == 0);
	check(descriptors_open() == base);
	check(files_open() == files);
	check(lines_of("/proc/self/maps") == mappings);
	say("done");
	return 0;
}

int main(int argc, char **argv)
{
	size_t i;

	for (i = 0; i < sizeof(bytes); i++)
		bytes[i] = (char)('a' + i % 26);
	if (argc > 2 && strcmp(argv[1], "serve") == 0)
		serve_for_good(argv[2]);
	return argc > 3 ? call_many(argv[2], atoi(argv[3]), argc > 4) : 2;
}
