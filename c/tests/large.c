/*
 * large: messages above 4,096 bytes, run with `doord --long`; its server is a child. `large sum SIZE`: it leaves what it
 * sends in the file `sent`. `large least` has the parameters of doors, `large rain` signals, `large room` no descriptors,
 * and `large small` is run without --long.
 */
#define _GNU_SOURCE 1
#include "test.h"

#include <sys/mman.h>
#include <sys/resource.h>
#include <sys/time.h>

enum { MOST = 16 * 1024 * 1024, KERNELS = 4096 };

static char *fill, *buffer; /* of MOST + 1 bytes */
static int door;

static int maps_with(const char *text)
{
	FILE *maps = fopen("/proc/self/maps", "r");
	char line[1024];
	int count = 0;

	while (fgets(line, sizeof(line), maps) != NULL)
		count += strstr(line, text) != NULL;
	fclose(maps);
	return count;
}

static door_desc_t null_device(void)
{
	door_desc_t null;

	memset(&null, 0, sizeof(null));
	null.d_attributes = DOOR_DESCRIPTOR | DOOR_RELEASE;
	null.d_data.d_desc.d_descriptor = open("/dev/null", O_RDWR);
	return null;
}

/* What came is the server's to write to, and is there until it has returned well. */
static void echo(char *argument, size_t size)
{
	argument[0] = 'E';
	argument[size - 1] = '!';
	door_return(NULL, 1, NULL, 0);
	check(errno == EFAULT);
	door_return(fill, MOST + 1, NULL, 0);
	check(errno == E2BIG);
	door_return(argument, size, NULL, 0);
}

static void limit_files(int is_low)
{
	static struct rlimit before;
	struct rlimit few;

	if (is_low)
		check(getrlimit(RLIMIT_NOFILE, &before) == 0);
	few = before;
	few.rlim_cur = is_low ? 3 : before.rlim_cur;
	check(setrlimit(RLIMIT_NOFILE, &few) == 0);
}

/*
 * By the first byte: e echoes, d with a descriptor, s gives a thousand bytes for each that came, x ends the thread,
 * f leaves no descriptor free, F takes that back, and c says what is open and mapped.
 */
static void serve(void *cookie, char *argument, size_t size, door_desc_t *descriptors, uint_t count)
{
	door_desc_t null;
	int counts[2];

	(void)cookie;
	check(size > 0 && (uintptr_t)argument % 8 == 0 && memcmp(argument + 1, fill + 1, size - 1) == 0);
	while (count > 0)
		check(close(descriptors[--count].d_data.d_desc.d_descriptor) == 0);
	switch (argument[0]) {
	case 'd':
		null = null_device();
		door_return(argument, size, &null, 1);
		break;
	case 's':
		door_return(fill, 1000 * size, NULL, 0);
		break;
	case 'x':
		pthread_exit(NULL);
	case 'f':
	case 'F':
		limit_files(argument[0] == 'f');
		door_return(NULL, 0, NULL, 0);
		break;
	case 'c':
		counts[0] = descriptors_open();
		counts[1] = maps_with("memfd:libdoor ");
		door_return((char *)counts, sizeof(counts), NULL, 0);
		break;
	default:
		echo(argument, size);
	}
	say("door_return: %s", error_name(errno));
}

static int server(void)
{
	serve_at("large", serve, NULL, 0);
	return pause_for_good();
}

/* The error of a call with so many bytes, of which the first is this one. */
static int call(door_arg_t *it, char what, size_t size, char *room, size_t room_size)
{
	char first = fill[0];

	memset(it, 0, sizeof(*it));
	it->data_ptr = fill;
	it->data_size = size;
	it->rbuf = room;
	it->rsize = room_size;
	fill[0] = what;
	int error = door_call(door, it) == -1 ? errno : 0;
	fill[0] = first;
	return error;
}

static void give_back(const door_arg_t *it)
{
	if (it->rbuf != NULL && it->rbuf != buffer)
		check((uintptr_t)it->rbuf % 4096 == 0 && munmap(it->rbuf, it->rsize) == 0);
}

static void echoes(size_t size, size_t room)
{
	door_arg_t it;

	check(call(&it, 'e', size, room > 0 ? buffer : NULL, room) == 0);
	check(it.data_size == size && it.desc_num == 0 && it.data_ptr == it.rbuf && it.rsize >= size);
	check((it.rbuf == buffer) == (room >= size));
	check(it.data_ptr[0] == 'E' && it.data_ptr[size - 1] == '!' && memcmp(it.data_ptr + 1, fill + 1, size - 2) == 0);
	give_back(&it);
}

static void sizes(void)
{
	static const size_t all[] = { 2, 75, KERNELS, KERNELS + 1, 5000, 65536, 65537, 500000 };
	door_arg_t it, before;
	size_t i;

	for (i = 0; i < sizeof(all) / sizeof(all[0]); i++) {
		echoes(all[i], 0);
		echoes(all[i], all[i] - 1);
		echoes(all[i], all[i]);
		echoes(all[i], MOST + 1);
	}
	check(call(&it, 'c', MOST, buffer, MOST) == 0);
	check(call(&it, 'e', MOST + 1, buffer, MOST) == E2BIG);
	before = it;
	check(door_call(door, &it) == -1 && errno == E2BIG && memcmp(&it, &before, sizeof(it)) == 0);
	/* results alone are large */
	check(call(&it, 's', 5, buffer, 5000) == 0 && it.data_size == 5000 && it.data_ptr == buffer);
	check(memcmp(buffer, fill, 5000) == 0);
	check(call(&it, 's', 5, buffer, 4999) == 0 && it.data_size == 5000 && it.rbuf != buffer);
	check(memcmp(it.rbuf, fill, 5000) == 0);
	give_back(&it);
	check(call(&it, 's', 4, buffer, MOST) == 0 && it.data_size == 4000);
}

/* One memory for argument and results, results that nobody wants, and descriptors beside the bytes, each way. */
static void special(void)
{
	door_arg_t it;
	door_desc_t sent[16];
	size_t i;

	memcpy(buffer, fill, 70000);
	buffer[0] = 'e';
	it = (door_arg_t){ buffer, 70000, NULL, 0, buffer, 70000 };
	check(door_call(door, &it) == 0 && it.data_ptr == buffer && it.data_size == 70000);
	check(buffer[0] == 'E' && buffer[69999] == '!' && memcmp(buffer + 1, fill + 1, 69998) == 0);
	for (i = 0; i < 16; i++)
		sent[i] = null_device();
	fill[0] = 'd';
	it = (door_arg_t){ fill, 20000, sent, 16, buffer, 20000 };
	check(door_call(door, &it) == 0 && it.desc_num == 1);
	check(it.data_size == 20000 && memcmp(it.data_ptr, fill, 20000) == 0);
	check((char *)it.desc_ptr >= it.rbuf + 20000 && close(it.desc_ptr[0].d_data.d_desc.d_descriptor) == 0);
	give_back(&it);
	it = (door_arg_t){ fill, 20000, sent, 1, buffer, MOST };
	check(door_call(door, &it) == -1 && errno == EINVAL);
	check(close(door) == 0 && door_call(door, &it) == -1 && errno == EBADF);
	door = open("large", O_RDWR);
	check(call(&it, 'x', 30000, buffer, MOST) == EINTR);
}

static void *call_on(void *number)
{
	static const size_t all[] = { 100, 5000, KERNELS, 200000, KERNELS + 1 };
	size_t i, self = (size_t)(uintptr_t)number;

	for (i = 0; i < 100; i++) {
		size_t size = all[(i + self) % 5] + self;
		char *own = malloc(size);
		door_arg_t it = { own, size, NULL, 0, own, size };

		memcpy(own, fill, size);
		own[0] = 'e';
		check(door_call(door, &it) == 0 && it.data_size == size && it.rbuf == own);
		check(own[0] == 'E' && own[size - 1] == '!' && memcmp(own + 1, fill + 1, size - 2) == 0);
		free(own);
	}
	return NULL;
}

static void many_threads(void)
{
	pthread_t thread[3];
	size_t i;

	for (i = 0; i < 3; i++)
		thread[i] = thread_of(call_on, (void *)(uintptr_t)i);
	for (i = 0; i < 3; i++)
		pthread_join(thread[i], NULL);
}

/* What the server has open, and how many arguments it has still, at most one for each of its threads. */
static int open_in_server(int most)
{
	door_arg_t it;
	int counts[2];

	check(call(&it, 'c', 1, buffer, MOST) == 0 && it.data_size == sizeof(counts));
	memcpy(counts, buffer, sizeof(counts));
	check(counts[1] <= most);
	return counts[0];
}

static void all(void)
{
	int before = descriptors_open(), in_server = open_in_server(0);

	sizes();
	special();
	many_threads();
	check(descriptors_open() == before && open_in_server(4) == in_server && maps_with("memfd:libdoor ") == 0);
}

static void sum(size_t size)
{
	int file = open("sent", O_CREAT | O_WRONLY, 0600);
	door_arg_t it;

	check(call(&it, 'e', size, buffer, MOST) == 0);
	buffer[0] = 'e';
	buffer[size - 1] = fill[size - 1];
	check(write(file, buffer, size) == (ssize_t)size);
}

static void small(void)
{
	door_arg_t it;

	check(call(&it, 'e', KERNELS + 1, buffer, MOST) == E2BIG && call(&it, 'e', MOST, buffer, MOST) == E2BIG);
	check(call(&it, 'e', 5, buffer, MOST) == 0);
}

static volatile sig_atomic_t handled;

static void on_alarm(int number)
{
	static char own[9000];
	door_arg_t it = { own, sizeof(own), NULL, 0, own, sizeof(own) };
	int error;

	(void)number;
	memcpy(own, fill, sizeof(own));
	own[0] = 'd';
	error = door_call(door, &it) == -1 ? errno : 0;
	check(error == EINTR || error == EAGAIN || (error == 0 && it.data_size == sizeof(own) && it.desc_num == 1));
	if (error != 0)
		return;
	check(memcmp(it.data_ptr + 1, fill + 1, sizeof(own) - 1) == 0);
	check(close(it.desc_ptr[0].d_data.d_desc.d_descriptor) == 0);
	if (it.rbuf != own)
		check(munmap(it.rbuf, it.rsize) == 0);
	handled++;
}

/* A handler that calls with many bytes runs in a thread that waits for the answer of such a call, which may be there already. */
static void rain(void)
{
	struct itimerval often = { { 0, 3000 }, { 0, 3000 } }, never = { { 0, 0 }, { 0, 0 } };
	int before = descriptors_open(), i, came = 0, ended = 0;

	check(signal(SIGALRM, on_alarm) != SIG_ERR && setitimer(ITIMER_REAL, &often, NULL) == 0);
	for (i = 0; i < 20000 && (i < 200 || came < 20 || ended < 20 || handled < 20); i++) {
		door_arg_t it;
		int error = call(&it, 'd', 30000, buffer, MOST);

		check(error == 0 || error == EINTR);
		if (error == 0) {
			check(it.data_size == 30000 && memcmp(it.data_ptr + 1, fill + 1, 29999) == 0);
			check(close(it.desc_ptr[0].d_data.d_desc.d_descriptor) == 0);
		}
		came += error == 0;
		ended += error == EINTR;
	}
	check(setitimer(ITIMER_REAL, &never, NULL) == 0);
	check(came >= 20 && ended >= 20 && handled >= 20 && descriptors_open() == before && maps_with("memfd:libdoor ") == 0);
}

/* The server has no descriptor to receive the bytes by, and then it has. */
static void without_room(void)
{
	door_arg_t it;
	struct rlimit limit, few;

	check(call(&it, 'f', 2, buffer, MOST) == 0);
	check(call(&it, 's', 2, buffer, MOST) == 0 && it.data_size == 2000);
	check(call(&it, 'e', 5000, buffer, MOST) == EINTR);
	check(call(&it, 'F', 2, buffer, MOST) == 0);
	echoes(5000, MOST);
	/* and now this process */
	check(getrlimit(RLIMIT_NOFILE, &limit) == 0);
	few = limit;
	few.rlim_cur = 3;
	check(setrlimit(RLIMIT_NOFILE, &few) == 0);
	check(call(&it, 'e', 5000, buffer, MOST) == EMFILE);
	check(call(&it, 's', 5, buffer, MOST) == EMFILE);
	check(call(&it, 's', 4, buffer, MOST) == 0 && it.data_size == 4000);
	check(setrlimit(RLIMIT_NOFILE, &limit) == 0);
	echoes(5000, MOST);
}

static int set_and_get(int parameter, size_t value)
{
	size_t found = 12345;

	return door_setparam(door, parameter, value) == 0 && door_getparam(door, parameter, &found) == 0 && found == value;
}

static int size_of(size_t size)
{
	door_arg_t it;
	int error = call(&it, 'd', size, buffer, MOST);

	check(error != 0 || (it.data_size == size && close(it.desc_ptr[0].d_data.d_desc.d_descriptor) == 0));
	return error;
}

/* data-min and data-max are compared with the true size; here the server's process makes the calls. */
static void least(void)
{
	check(set_and_get(DOOR_PARAM_DATA_MAX, 6000));
	check(size_of(6001) == ENOBUFS && size_of(6000) == 0 && size_of(4097) == 0 && size_of(4096) == 0);
	check(set_and_get(DOOR_PARAM_DATA_MIN, 100));
	check(size_of(99) == ENOBUFS && size_of(100) == 0 && size_of(5000) == 0 && size_of(6001) == ENOBUFS);
	check(set_and_get(DOOR_PARAM_DATA_MIN, 4096));
	check(size_of(4095) == ENOBUFS && size_of(4096) == 0 && size_of(4097) == 0);
	check(set_and_get(DOOR_PARAM_DATA_MIN, 5000));
	check(size_of(100) == ENOBUFS && size_of(4096) == ENOBUFS && size_of(4999) == ENOBUFS);
	check(size_of(5000) == 0 && size_of(6000) == 0);
	fails(door_setparam(door, DOOR_PARAM_DATA_MAX, 4999), EINVAL);
	fails(door_setparam(door, DOOR_PARAM_DATA_MAX, 10), EINVAL);
	fails(door_setparam(door, DOOR_PARAM_DATA_MIN, 6001), EINVAL);
	check(size_of(5000) == 0 && size_of(6000) == 0 && size_of(6001) == ENOBUFS);
	check(set_and_get(DOOR_PARAM_DATA_MAX, 5000) && size_of(5000) == 0 && size_of(5001) == ENOBUFS);
	check(set_and_get(DOOR_PARAM_DATA_MIN, 0) && set_and_get(DOOR_PARAM_DATA_MAX, 20));
	check(size_of(20) == 0 && size_of(21) == ENOBUFS && size_of(5000) == ENOBUFS);
	check(set_and_get(DOOR_PARAM_DATA_MAX, 0) && size_of(5000) == ENOBUFS);
	check(set_and_get(DOOR_PARAM_DATA_MAX, SIZE_MAX) && size_of(100000) == 0 && size_of(MOST + 1) == E2BIG);
}

int main(int argc, char **argv)
{
	pid_t process = -1;
	int i, is_one = argc == 2 && strcmp(argv[1], "least") == 0;

	fill = malloc(MOST + 1);
	buffer = malloc(MOST + 1);
	for (i = 0; i <= MOST; i++)
		fill[i] = (char)(i * 7 + i / 256);
	if (!is_one)
		process = beside(server);
	door = is_one ? serve_at("large", serve, NULL, 0) : door_at("large");
	if (is_one)
		least();
	else if (argc == 3)
		sum((size_t)atol(argv[2]));
	else if (argc == 2 && strcmp(argv[1], "rain") == 0)
		rain();
	else if (argc == 2 && strcmp(argv[1], "room") == 0)
		without_room();
	else if (argc == 2)
		small();
	else
		all();
	if (!is_one) {
		kill(process, SIGKILL);
		end_of(process);
	}
	say("done");
	return 0;
}
