/*
 * refs: which calls make and drop references to a door, as DOOR_IS_UNREF and the notices show. Its process has one server thread, so what
 * is called after a notice was made is served after it.
 */
#define _GNU_SOURCE 1
#include "test.h"

static int notices[3];

static void serve(void *cookie, char *argument, size_t size, door_desc_t *descriptors, uint_t descriptor_count)
{
	(void)size;
	if (argument == DOOR_UNREF_DATA) {
		check(size == 0 && descriptors == NULL && descriptor_count == 0);
		notices[(uintptr_t)cookie]++;
		door_return(NULL, 0, NULL, 0);
	}
	if (descriptor_count == 1)
		check(close(descriptors[0].d_data.d_desc.d_descriptor) == 0);
	give("");
}

static int is_unref(int door)
{
	door_info_t info;

	check(door_info(door, &info) == 0);
	return (info.di_attributes & DOOR_IS_UNREF) != 0;
}

/* How many notices a door has had. */
static int notices_of(int door, int number)
{
	char answer[8];

	check(ask(door, "", answer, sizeof(answer)) == 0);
	return notices[number];
}

static void duplicates(int door, int count, int each)
{
	int file = open("/dev/null", O_RDWR), copy;

	check(is_unref(door));
	copy = dup(door);
	check(copy > door && !is_unref(door) && !is_unref(copy));
	check(close(copy) == 0);
	check(is_unref(door));
	check(notices_of(door, each) == count);

	check(dup2(door, 100) == 100 && !is_unref(100));
	check(dup2(door, door) == door && !is_unref(door));
	check(dup2(door, 100) == 100 && !is_unref(100)); /* one is closed, one is made */
	check(dup2(file, 100) == 100 && is_unref(door));
	fails(close(dup2(door, -1)), EBADF);
	check(dup2(door, 100) == 100 && !is_unref(door)); /* over a file */
	check(close(100) == 0);

	check(dup3(door, 101, O_CLOEXEC) == 101 && !is_unref(door));
	fails(dup3(door, door, 0), EINVAL);
	fails(dup3(door, 102, 1), EINVAL);
	check(close(101) == 0 && is_unref(door));

	copy = fcntl(door, F_DUPFD, 103);
	check(copy == 103 && !is_unref(door) && close(103) == 0 && is_unref(door));
	copy = fcntl(door, F_DUPFD_CLOEXEC, 103);
	check(copy == 103 && !is_unref(door) && close(103) == 0 && is_unref(door));
	check(close(file) == 0);
	fails(dup(file), EBADF);
	fails(dup2(file, 104), EBADF);
}

static void other_ways(int door)
{
	door_desc_t one;
	door_arg_t call = { NULL, 0, &one, 1, NULL, 0 };
	int copy;

	touch("refs");
	check(fattach(door, "refs") == 0 && !is_unref(door));
	copy = open("refs", O_RDONLY);
	check(copy != -1 && !is_unref(copy));
	check(fdetach("refs") == 0 && !is_unref(door));
	check(close(door) == 0 && is_unref(copy)); /* whose the last one is makes no difference */
	check(dup2(copy, door) == door && !is_unref(copy));
	check(close(copy) == 0 && is_unref(door));
	/* one that is passed and closed by who got it; one that is handed over */
	memset(&one, 0, sizeof(one));
	one.d_attributes = DOOR_DESCRIPTOR;
	one.d_data.d_desc.d_descriptor = door;
	check(door_call(door, &call) == 0 && is_unref(door));
	copy = dup(door);
	one.d_attributes = DOOR_DESCRIPTOR | DOOR_RELEASE;
	one.d_data.d_desc.d_descriptor = copy;
	call.desc_ptr = &one;
	call.desc_num = 1;
	call.data_ptr = NULL;
	call.data_size = 0;
	call.rbuf = NULL;
	call.rsize = 0;
	check(door_call(door, &call) == 0 && is_unref(door));
	fails(close(copy), EBADF);
}

int main(void)
{
	int once = door_create(serve, (void *)0, DOOR_UNREF);
	int each = door_create(serve, (void *)1, DOOR_UNREF_MULTI);
	int none = door_create(serve, (void *)2, 0);
	int copy;

	duplicates(once, 1, 0);
	check(notices_of(once, 0) == 1);
	duplicates(each, 1, 1);
	/* of dup; of 100, by a door over it, by a file over it, by close; of 101; of 103, twice */
	check(notices_of(each, 1) == 7);
	duplicates(none, 0, 2);
	other_ways(each);
	/* fdetach made none, for a descriptor was left; close of the first; of its copy; after each call */
	check(notices_of(each, 1) == 11);
	check(notices_of(none, 2) == 0);
	/* dup2 of one door over the last but one descriptor of another */
	copy = dup(each);
	check(dup2(none, copy) == copy && is_unref(each) && !is_unref(none));
	check(notices_of(each, 1) == 12);
	check(close(copy) == 0 && is_unref(none));
	/* nobody is told of a revoked door */
	copy = dup(each);
	check(door_revoke(each) == 0);
	check(notices_of(none, 2) == 0 && notices[1] == 12 && notices[0] == 1);
	check(close(copy) == 0);
	say("done");
	return 0;
}
