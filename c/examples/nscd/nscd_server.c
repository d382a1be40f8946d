/*
 * nscd_server.c: the door, the threads that answer its calls, and what they answer.
 *
 * The system asks for a thread, by the function that door_server_create(3C) was given, when the last one that waits for calls is taken. So
 * the pool grows with the calls that are there at once, up to its most.
 */
#include <door.h>
#include <errno.h>
#include <fcntl.h>
#include <limits.h>
#include <pthread.h>
#include <signal.h>
#include <stdlib.h>
#include <string.h>
#include <stropts.h>
#include <time.h>
#include <unistd.h>

#include "nscd.h"
#include "nsc_files.h"

enum { LINE_MOST = 16384 };

static struct {
	pthread_mutex_t lock;
	pthread_cond_t is_idle;
	pthread_key_t key; /* whose destructor sees the end of a thread */
	const char *folder;
	int door;
	int most_threads, threads;
	unsigned calls, at_once, busiest;
} server = { .lock = PTHREAD_MUTEX_INITIALIZER, .is_idle = PTHREAD_COND_INITIALIZER };

/* What is answered: the reply, and behind it what it has. */
typedef struct {
	nsc_reply_t reply;
	char bytes[LINE_MOST];
} answer_t;

/* the pool */

static void count_thread_out(void *unused)
{
	(void)unused;
	(void)pthread_mutex_lock(&server.lock);
	server.threads--;
	(void)pthread_mutex_unlock(&server.lock);
}

static void *serve(void *unused)
{
	(void)unused;
	if (pthread_setspecific(server.key, &server) == 0)
		(void)door_return(NULL, 0, NULL, 0);
	log_line("a server thread ends: %s", strerror(errno));
	return NULL;
}

static void create_server(door_info_t *info)
{
	pthread_attr_t attributes;
	pthread_t thread;
	bool may_make;

	(void)info;
	(void)pthread_mutex_lock(&server.lock);
	may_make = server.threads < server.most_threads;
	server.threads += may_make;
	(void)pthread_mutex_unlock(&server.lock);
	if (!may_make || pthread_attr_init(&attributes) != 0)
		return;
	(void)pthread_attr_setdetachstate(&attributes, PTHREAD_CREATE_DETACHED);
	if (pthread_create(&thread, &attributes, serve, NULL) != 0) {
		log_line("no thread");
		count_thread_out(NULL);
	}
	(void)pthread_attr_destroy(&attributes);
}

static void begin_call(void)
{
	(void)pthread_mutex_lock(&server.lock);
	server.calls++;
	server.at_once++;
	if (server.busiest < server.at_once)
		server.busiest = server.at_once;
	(void)pthread_mutex_unlock(&server.lock);
}

static void end_call(void)
{
	(void)pthread_mutex_lock(&server.lock);
	server.at_once--;
	if (server.at_once == 0)
		(void)pthread_cond_broadcast(&server.is_idle);
	(void)pthread_mutex_unlock(&server.lock);
}

/* the answers */

static void put_bytes(answer_t *answer, const void *bytes, size_t size)
{
	(void)memcpy(answer->bytes, bytes, size);
	answer->reply.status = NSC_SUCCESS;
	answer->reply.size = (uint32_t)size;
}

static void put_line(answer_t *answer, int found, const char *line)
{
	if (found == 0)
		answer->reply.status = NSC_NOTFOUND;
	else if (found == 1 && strlen(line) < LINE_MOST)
		put_bytes(answer, line, strlen(line) + 1);
	else
		answer->reply.status = NSC_NOSERVER;
}

static void look_up(nsc_call_t call, const char *key, answer_t *answer)
{
	char *line = NULL;
	unsigned generation;
	int found;

	switch (cache_get(call, key, answer->bytes, LINE_MOST, &generation)) {
	case CACHE_HIT:
		answer->reply.status = NSC_SUCCESS;
		answer->reply.size = (uint32_t)strlen(answer->bytes) + 1;
		return;
	case CACHE_ABSENT:
		answer->reply.status = NSC_NOTFOUND;
		return;
	case CACHE_MISS:
		break;
	}
	found = nsc_file_line(server.folder, call, key, &line);
	if (found == -1)
		log_line("%s: %s", nsc_database_name[nsc_database_of(call)], strerror(errno));
	else
		cache_put(call, key, line, generation);
	put_line(answer, found, line);
	free(line);
}

static void put_statistics(answer_t *answer)
{
	nsc_statistics_t statistics = { .pid = (uint32_t)getpid() };

	cache_count(statistics.database);
	(void)pthread_mutex_lock(&server.lock);
	statistics.calls = server.calls;
	statistics.threads = (uint32_t)server.threads;
	statistics.busiest = server.busiest;
	(void)pthread_mutex_unlock(&server.lock);
	put_bytes(answer, &statistics, sizeof(statistics));
}

/* Who may administer: root, and who the daemon runs as. */
static bool may_administer(pid_t *pid)
{
	door_cred_t cred;

	if (door_cred(&cred) == -1)
		return false;
	*pid = cred.dc_pid;
	return cred.dc_euid == 0 || cred.dc_euid == geteuid();
}

static void administer(nsc_call_t call, const char *key, answer_t *answer)
{
	int database;
	pid_t pid = 0;

	if (!may_administer(&pid)) {
		answer->reply.status = NSC_DENIED;
		return;
	}
	answer->reply.status = NSC_SUCCESS;
	switch (call) {
	case NSC_STATISTICS:
		put_statistics(answer);
		break;
	case NSC_INVALIDATE:
		answer->reply.status = NSC_NOTFOUND;
		for (database = 0; database < NSC_DATABASES; database++) {
			if (*key != '\0' && strcmp(key, nsc_database_name[database]) != 0)
				continue;
			cache_invalidate((nsc_database_t)database);
			log_line("%s invalidated by process %ld", nsc_database_name[database], (long)pid);
			answer->reply.status = NSC_SUCCESS;
		}
		break;
	case NSC_SHUTDOWN:
		log_line("shutdown by process %ld", (long)pid);
		(void)kill(getpid(), SIGTERM);
		break;
	default:
		answer->reply.status = NSC_NOSERVER;
	}
}

/* What a client sends is only believed where it is whole: of this version, with a key that ends. */
static void answer_call(const char *argument, size_t size, answer_t *answer)
{
	const size_t head = offsetof(nsc_request_t, key);
	nsc_request_t request;

	(void)memset(&answer->reply, 0, sizeof(answer->reply));
	(void)memset(&request, 0, sizeof(request));
	if (size > head && size <= sizeof(request) && argument[size - 1] == '\0')
		(void)memcpy(&request, argument, size);
	if (request.version != NSC_VERSION) {
		log_line("a call of %zu bytes is none of ours", size);
		answer->reply.status = NSC_NOSERVER;
	} else if (request.call < NSC_LOOKUPS) {
		look_up((nsc_call_t)request.call, request.key, answer);
	} else {
		administer((nsc_call_t)request.call, request.key, answer);
	}
}

static void serve_call(void *cookie, char *argument, size_t size, door_desc_t *descriptors, uint_t count)
{
	answer_t answer;

	(void)cookie;
	(void)descriptors;
	(void)count;
	if (argument == DOOR_UNREF_DATA) {
		log_line("unreferenced: nobody can reach the door any more");
		(void)kill(getpid(), SIGTERM);
		(void)door_return(NULL, 0, NULL, 0);
	}
	begin_call();
	answer_call(argument, size, &answer);
	end_call();
	(void)door_return((char *)&answer, sizeof(answer.reply) + answer.reply.size, NULL, 0);
	/* It is here where so much cannot be handed over. The client is to look for itself. */
	log_line("door_return of %zu bytes: %s", sizeof(answer.reply) + answer.reply.size, strerror(errno));
	answer.reply.status = NSC_NOSERVER;
	answer.reply.size = 0;
	(void)door_return((char *)&answer, sizeof(answer.reply), NULL, 0);
}

/* the door */

/* The file is made where it is not there. The door of a daemon that was killed may still be attached to it. */
static int attach(const char *folder)
{
	char path[PATH_MAX];
	int file;

	if (nsc_path(path, sizeof(path), folder, NSC_DOOR) == -1)
		return -1;
	(void)fdetach(path);
	file = open(path, O_RDWR | O_CREAT | O_CLOEXEC, 0644);
	if (file == -1)
		return -1;
	(void)close(file);
	return fattach(server.door, path);
}

int server_begin(const char *folder, int most_threads)
{
	server.folder = folder;
	server.most_threads = most_threads;
	if (pthread_key_create(&server.key, count_thread_out) != 0)
		return -1;
	(void)door_server_create(create_server);
	server.door = door_create(serve_call, (void *)(uintptr_t)NSC_COOKIE, DOOR_UNREF | DOOR_REFUSE_DESC | DOOR_NO_CANCEL);
	if (server.door == -1)
		return -1;
	if (door_setparam(server.door, DOOR_PARAM_DATA_MAX, sizeof(nsc_request_t)) == -1)
		return -1;
	return attach(folder);
}

/*
 * Old clients have a door that is revoked, new ones find the plain file, and both look into the files. What is being answered may come to
 * its end. The path may have been detached before, by whoever made the door unreferenced.
 */
void server_end(const char *folder, int seconds)
{
	char path[PATH_MAX];
	struct timespec until;

	if (door_revoke(server.door) == -1)
		log_line("door_revoke: %s", strerror(errno));
	if (nsc_path(path, sizeof(path), folder, NSC_DOOR) == 0)
		(void)fdetach(path);
	(void)clock_gettime(CLOCK_REALTIME, &until);
	until.tv_sec += seconds;
	(void)pthread_mutex_lock(&server.lock);
	while (server.at_once > 0 && pthread_cond_timedwait(&server.is_idle, &server.lock, &until) == 0)
		continue;
	if (server.at_once > 0)
		log_line("%u calls are not answered", server.at_once);
	(void)pthread_mutex_unlock(&server.lock);
}
