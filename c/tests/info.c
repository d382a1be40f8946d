/* info: what door_info(3C) tells of a door, to its own process and to another, before and after it is revoked. */
#include "test.h"

static int kept, revoked;

static void serve(void *cookie, char *argument, size_t size, door_desc_t *descriptors, uint_t descriptor_count)
{
	(void)cookie;
	(void)argument;
	(void)descriptors;
	(void)descriptor_count;
	if (size == 6) {
		kept = dup(revoked);
		check(door_revoke(revoked) == 0);
	}
	give("ok");
}

static void other(void *cookie, char *argument, size_t size, door_desc_t *descriptors, uint_t descriptor_count)
{
	(void)cookie;
	(void)argument;
	(void)size;
	(void)descriptors;
	(void)descriptor_count;
	give("other");
}

static void *query(void *door)
{
	door_info_t told, info;

	fails(door_info(DOOR_QUERY, &told), EBADF);
	fails(door_unbind(), EBADF);
	check(door_bind((int)(intptr_t)door) == 0);
	check(door_info(DOOR_QUERY, &told) == 0);
	check(door_info((int)(intptr_t)door, &info) == 0);
	check(told.di_uniquifier == info.di_uniquifier && told.di_data == info.di_data && told.di_proc == info.di_proc);
	check(told.di_attributes == info.di_attributes && told.di_target == getpid());
	check(door_unbind() == 0);
	fails(door_info(DOOR_QUERY, &told), EBADF);
	return NULL;
}

static void no_doors(void)
{
	door_info_t info;
	int file = open("/dev/null", O_RDWR), pipes[2];

	check(pipe(pipes) == 0);
	fails(door_info(file, &info), EBADF);
	fails(door_info(pipes[0], &info), EBADF);
	fails(door_info(pipes[1], &info), EBADF);
	fails(door_info(-1, &info), EBADF);
	fails(door_info(-3, &info), EBADF);
	fails(door_info(1000, &info), EBADF);
	fails(door_call(file, NULL), EBADF);
	fails(door_call(-1, NULL), EBADF);
	fails(door_revoke(file), EBADF);
	fails(door_bind(file), EBADF);
	close(file);
	fails(door_info(file, &info), EBADF);
	close(pipes[0]);
	close(pipes[1]);
}

static int server(void)
{
	door_info_t info, second;
	uint_t attributes = DOOR_PRIVATE | DOOR_REFUSE_DESC | DOOR_NO_CANCEL | DOOR_UNREF_MULTI;
	int door;

	no_doors();
	fails(door_create(serve, NULL, DOOR_LOCAL), EINVAL);
	fails(door_create(serve, NULL, DOOR_REVOKED), EINVAL);
	fails(door_create(serve, NULL, DOOR_IS_UNREF), EINVAL);
	fails(door_create(serve, NULL, 0x1000), EINVAL);
	door = door_create(other, (void *)8, attributes);
	check(door_info(door, &info) == 0);
	check(info.di_target == getpid());
	check(info.di_proc == (door_ptr_t)(uintptr_t)other);
	check(info.di_data == 8);
	check(info.di_attributes == (attributes | DOOR_LOCAL | DOOR_IS_UNREF));
	pthread_join(thread_of(query, (void *)(intptr_t)door), NULL);
	check(fcntl(door, F_GETFD) == FD_CLOEXEC);
	revoked = serve_at("revoked", serve, (void *)(uintptr_t)0xfedcba9876543210ull, DOOR_UNREF);
	check(door_info(revoked, &second) == 0);
	check(second.di_attributes == (DOOR_UNREF | DOOR_LOCAL));
	check(second.di_data == 0xfedcba9876543210ull);
	check(second.di_uniquifier != info.di_uniquifier);
	serve_at("other", other, NULL, 0);
	wait_for("is_revoked");
	fails(door_info(revoked, &info), EBADF);
	check(door_info(kept, &info) == 0);
	check(info.di_attributes == (DOOR_UNREF | DOOR_LOCAL | DOOR_REVOKED));
	check(info.di_uniquifier == second.di_uniquifier);
	fails(door_revoke(kept), EBADF);
	fails(door_call(kept, NULL), EBADF);
	check(close(kept) == 0);
	fails(close(kept), EBADF);
	touch("server_has_seen");
	return pause_for_good();
}

int main(void)
{
	pid_t process = beside(server);
	int i, door = door_at("revoked"), second = door_at("other");
	char answer[64];
	door_info_t info, after;

	check(door_info(door, &info) == 0);
	check(info.di_target == process);
	check(info.di_attributes == DOOR_UNREF);
	check(info.di_data == 0xfedcba9876543210ull);
	check(fcntl(door, F_GETFD) == 0);
	fails(door_revoke(door), EPERM);
	fails(door_bind(second), EINVAL);
	check(ask(door, "revoke", answer, sizeof(answer)) == 0);
	check(door_info(door, &after) == 0);
	check(after.di_attributes == (DOOR_UNREF | DOOR_REVOKED));
	check(after.di_uniquifier == info.di_uniquifier);
	check(ask(door, "again", answer, sizeof(answer)) == EBADF);
	touch("is_revoked");
	wait_for("server_has_seen");
	check(ask(second, "x", answer, sizeof(answer)) == 0);
	kill(process, SIGKILL);
	check(end_of(process) == -SIGKILL);
	for (i = 0; i < 4000 && door_info(second, &after) == 0 && after.di_target != -1; i++)
		usleep(5000);
	check(after.di_target == -1);
	check((after.di_attributes & DOOR_REVOKED) == 0);
	check(ask(second, "x", answer, sizeof(answer)) == EBADF);
	close(door);
	close(second);
	say("done");
	return 0;
}
