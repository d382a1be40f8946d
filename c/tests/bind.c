/* bind: a private door, which the program's own thread serves while it is bound to it. The process has one server thread of the library. */
#include "test.h"

static int private_door, second, common;
static pthread_t own;

static void serve(void *cookie, char *argument, size_t size, door_desc_t *descriptors, uint_t descriptor_count)
{
	door_info_t info;
	int error;

	(void)cookie;
	(void)argument;
	(void)descriptors;
	(void)descriptor_count;
	if (cookie == (void *)1) {
		check(pthread_equal(pthread_self(), own));
		check(door_info(DOOR_QUERY, &info) == 0 && info.di_data == 1);
	}
	if (size == 6) {
		check(door_unbind() == 0);
		fails(door_unbind(), EBADF);
		fails(door_info(DOOR_QUERY, &info), EBADF);
	}
	if (size == 6 || size == 4)
		check(door_bind(second) == 0); /* in place of what it was bound to */
	if (size == 4)
		check(door_bind(second) == 0);
	door_return(pthread_equal(pthread_self(), own) ? "own" : "other", pthread_equal(pthread_self(), own) ? 3 : 5, NULL, 0);
	error = errno;
	/* its door was revoked while it waited: it is bound to nothing, and ends with this procedure */
	check(error == EINVAL);
	fails(door_info(DOOR_QUERY, &info), EBADF);
	fails(door_unbind(), EBADF);
}

static void *serve_privately(void *unused)
{
	own = pthread_self();
	fails(door_bind(common), EINVAL);
	fails(door_bind(999), EBADF);
	fails(door_bind(STDIN_FILENO), EBADF);
	check(door_bind(private_door) == 0);
	door_return(NULL, 0, NULL, 0);
	say("here it does not come back, for it has served");
	return unused;
}

/* What the door answers; the first call waits until the thread is bound. */
static const char *answer_of(int door, const char *text)
{
	static char answer[64];
	int error = ask(door, text, answer, sizeof(answer));

	return error == 0 ? answer : error_name(error);
}

int main(void)
{
	pthread_t thread;
	door_info_t info;
	int copy;

	private_door = door_create(serve, (void *)1, DOOR_PRIVATE);
	second = door_create(serve, (void *)2, DOOR_PRIVATE);
	common = door_create(serve, (void *)3, 0);
	check(door_info(private_door, &info) == 0 && info.di_attributes == (DOOR_PRIVATE | DOOR_LOCAL | DOOR_IS_UNREF));
	thread = thread_of(serve_privately, NULL);
	say("%s", answer_of(private_door, ""));
	say("%s", answer_of(private_door, ""));
	say("%s", answer_of(common, ""));
	say("%s", answer_of(private_door, "unbind"));
	say("%s", answer_of(second, ""));
	say("%s", answer_of(second, "bind"));
	say("%s", answer_of(common, ""));
	/* a door that is revoked lets go of the thread that waits for its calls */
	copy = dup(second);
	check(door_revoke(second) == 0);
	pthread_join(thread, NULL);
	say("%s", answer_of(copy, ""));
	fails(door_bind(copy), EBADF);
	check(close(copy) == 0);
	return 0;
}
