/*
 * pass: descriptors of files and of doors, each way, with DOOR_RELEASE and without. Nobody keeps a copy: a pipe whose writing ends have
 * all been closed ends.
 */
#include "test.h"

static int own_door;

static door_desc_t passed(int descriptor, uint_t attributes)
{
	door_desc_t it;

	memset(&it, 0, sizeof(it));
	it.d_attributes = DOOR_DESCRIPTOR | attributes;
	it.d_data.d_desc.d_descriptor = descriptor;
	return it;
}

static void hello(void *cookie, char *argument, size_t size, door_desc_t *descriptors, uint_t descriptor_count)
{
	(void)cookie;
	(void)argument;
	(void)size;
	(void)descriptors;
	(void)descriptor_count;
	give("hello");
}

/* Writes to each file that came, and calls each door. */
static void use(const door_desc_t *descriptors, uint_t count)
{
	uint_t i;
	char answer[64];

	for (i = 0; i < count; i++) {
		int descriptor = descriptors[i].d_data.d_desc.d_descriptor;
		door_info_t info;

		check((descriptors[i].d_attributes & DOOR_DESCRIPTOR) != 0);
		check((descriptors[i].d_attributes & DOOR_RELEASE) == 0);
		if (door_info(descriptor, &info) == 0) {
			check(descriptors[i].d_data.d_desc.d_id == info.di_uniquifier);
			check((descriptors[i].d_attributes & DOOR_UNREF) == DOOR_UNREF);
			check((descriptors[i].d_attributes & DOOR_LOCAL) == (info.di_attributes & DOOR_LOCAL));
			check(ask(descriptor, "hi", answer, sizeof(answer)) == 0);
			check(strcmp(answer, "hello") == 0);
		} else {
			check(write(descriptor, "x", 1) == 1);
		}
		check(close(descriptor) == 0);
	}
}

static void serve(void *cookie, char *argument, size_t size, door_desc_t *descriptors, uint_t descriptor_count)
{
	static int pipes[2];
	door_desc_t results[2];

	(void)cookie;
	if (size == 3 && memcmp(argument, "use", 3) == 0) {
		use(descriptors, descriptor_count);
		give("used");
	}
	if (size == 4 && memcmp(argument, "drop", 4) == 0)
		pthread_exit(NULL);
	check(descriptor_count == 0);
	/* the reading end of a pipe, and a door, released or kept; the writing end gets a byte at the next call */
	if (size == 4 && memcmp(argument, "more", 4) == 0) {
		check(write(pipes[1], "abc", 3) == 3);
		close(pipes[1]);
		give("written");
	}
	check(pipe(pipes) == 0);
	if (size == 7 && memcmp(argument, "release", 7) == 0) {
		results[0] = passed(pipes[0], DOOR_RELEASE);
		results[1] = passed(dup(own_door), DOOR_RELEASE);
	} else {
		results[0] = passed(pipes[0], 0);
		results[1] = passed(own_door, 0);
	}
	door_return("two", 3, results, 2);
	say("door_return: %s", error_name(errno));
}

static int server(void)
{
	own_door = door_create(hello, NULL, DOOR_UNREF);
	serve_at("pass", serve, NULL, 0);
	return pause_for_good();
}

static int send(int door, const char *text, door_desc_t *descriptors, uint_t count)
{
	door_arg_t call;
	char answer[64];

	memset(&call, 0, sizeof(call));
	call.data_ptr = (char *)(uintptr_t)text;
	call.data_size = strlen(text);
	call.desc_ptr = descriptors;
	call.desc_num = count;
	call.rbuf = answer;
	call.rsize = sizeof(answer);
	if (door_call(door, &call) == -1)
		return errno;
	check(call.desc_num == 0);
	return 0;
}

/* How many bytes come from the pipe up to its end. */
static int until_end(int file)
{
	char byte;
	int count = 0;

	while (read(file, &byte, 1) == 1)
		count++;
	return count;
}

static void to_server(int door, int mine, uint_t release)
{
	int pipes[2], before = descriptors_open();
	door_desc_t both[2];

	check(pipe(pipes) == 0);
	both[0] = passed(pipes[1], release);
	both[1] = passed(release != 0 ? dup(mine) : mine, release);
	check(send(door, "use", both, 2) == 0);
	if (release != 0) {
		fails(close(pipes[1]), EBADF);
		fails(close(both[1].d_data.d_desc.d_descriptor), EBADF);
	} else {
		check(write(pipes[1], "y", 1) == 1);
		check(close(pipes[1]) == 0);
	}
	check(until_end(pipes[0]) == (release != 0 ? 1 : 2));
	close(pipes[0]);
	check(descriptors_open() == before);
}

static void from_server(int door, const char *how)
{
	char results[256], answer[64];
	int before = descriptors_open(), file, got;
	door_arg_t call = { (char *)(uintptr_t)how, strlen(how), NULL, 0, results, sizeof(results) };

	check(door_call(door, &call) == 0);
	check(call.rbuf == results && call.rsize == sizeof(results));
	check(call.data_ptr == results && call.data_size == 3 && memcmp(results, "two", 3) == 0);
	check(call.desc_num == 2);
	check((char *)call.desc_ptr >= results + 3 && (char *)(call.desc_ptr + 2) <= results + sizeof(results));
	check((uintptr_t)call.desc_ptr % _Alignof(door_desc_t) == 0);
	file = call.desc_ptr[0].d_data.d_desc.d_descriptor;
	got = call.desc_ptr[1].d_data.d_desc.d_descriptor;
	check(ask(door, "more", answer, sizeof(answer)) == 0);
	check(until_end(file) == 3);
	check(ask(got, "hi", answer, sizeof(answer)) == 0 && strcmp(answer, "hello") == 0);
	check(close(file) == 0 && close(got) == 0);
	check(descriptors_open() == before);
}

/* What nobody gets is closed: a call that is refused closes nothing, one whose server thread ends has taken what it released. */
static void to_nobody(int door)
{
	int pipes[2], i, file;
	door_desc_t many[17];

	check(pipe(pipes) == 0);
	many[0] = passed(pipes[1], DOOR_RELEASE);
	check(send(door, "drop", many, 1) == EINTR);
	fails(close(pipes[1]), EBADF);
	close(pipes[0]); /* the thread that ended has closed nothing, as in C */
	check(pipe(pipes) == 0);
	for (i = 0; i < 17; i++)
		many[i] = passed(pipes[1], 0);
	check(send(door, "use", many, 17) == E2BIG);
	many[0] = passed(pipes[1], DOOR_RELEASE);
	many[1] = many[0];
	check(send(door, "use", many, 2) == EINVAL);
	many[1] = passed(1000, 0);
	check(send(door, "use", many, 2) == EINVAL);
	check(fcntl(pipes[1], F_GETFD) != -1);
	many[0] = passed(pipes[1], 0);
	many[1] = many[0];
	check(send(door, "use", many, 2) == 0);
	close(pipes[1]);
	check(until_end(pipes[0]) == 2);
	close(pipes[0]);
	file = open("/dev/null", O_WRONLY);
	for (i = 0; i < 16; i++)
		many[i] = passed(i % 2 == 0 ? dup(file) : file, i % 2 == 0 ? DOOR_RELEASE : 0);
	check(send(door, "use", many, 16) == 0);
	close(file);
}

int main(void)
{
	pid_t process = beside(server);
	int mine, door = door_at("pass"), before;

	mine = door_create(hello, NULL, DOOR_UNREF);
	from_server(door, "keep");
	from_server(door, "release");
	before = descriptors_open();
	to_server(door, mine, 0);
	to_server(door, mine, DOOR_RELEASE);
	to_nobody(door);
	check(descriptors_open() == before);
	kill(process, SIGKILL);
	end_of(process);
	say("done");
	return 0;
}
