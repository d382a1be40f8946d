/*
 * nscd: a name service cache daemon. It answers look-ups of FOLDER/passwd and FOLDER/group through a door, FOLDER/name_service_door, and
 * keeps what it found for a time. SIGHUP makes it forget all, and open its log anew; SIGTERM ends it.
 *
 * usage: nscd [-f] [-d FOLDER] [-p SECONDS] [-n SECONDS] [-t THREADS]    the daemon
 *        nscd [-d FOLDER] -g | -i DATABASE | -K                         asks the one that runs
 */
#include <errno.h>
#include <fcntl.h>
#include <limits.h>
#include <signal.h>
#include <stdio.h>
#include <stdlib.h>
#include <string.h>
#include <sys/stat.h>
#include <unistd.h>

#include "nscd.h"
#include "nsc_client.h"

typedef struct {
	char folder[PATH_MAX];
	bool is_in_foreground;
	long positive, negative; /* seconds for which an entry, and the word that there is none, are kept */
	long threads;
	int administer; /* g, i or K; 0 for the daemon */
	const char *database;
} options_t;

static void usage(void)
{
	(void)fprintf(stderr, "usage: nscd [-f] [-d FOLDER] [-p SECONDS] [-n SECONDS] [-t THREADS]\n"
			      "       nscd [-d FOLDER] -g | -i passwd|group|all | -K\n");
	exit(2);
}

static void fail(const char *what)
{
	(void)fprintf(stderr, "nscd: %s: %s\n", what, strerror(errno));
	log_line("%s: %s", what, strerror(errno));
	exit(1);
}

static long number(const char *text, long least, long most)
{
	char *end;
	long value = strtol(text, &end, 10);

	if (end == text || *end != '\0' || value < least || value > most)
		usage();
	return value;
}

static void read_options(options_t *options, int argc, char **argv)
{
	const char *folder = "/etc";
	int option;

	while ((option = getopt(argc, argv, "fd:p:n:t:gi:K")) != -1) {
		switch (option) {
		case 'f':
			options->is_in_foreground = true;
			break;
		case 'd':
			folder = optarg;
			break;
		case 'p':
			options->positive = number(optarg, 0, 1000000);
			break;
		case 'n':
			options->negative = number(optarg, 0, 1000000);
			break;
		case 't':
			options->threads = number(optarg, 1, 1000);
			break;
		case 'i':
			options->database = optarg;
			options->administer = option;
			break;
		case 'g':
		case 'K':
			options->administer = option;
			break;
		default:
			usage();
		}
	}
	if (optind != argc)
		usage();
	/* the daemon's own folder will be another one */
	if (realpath(folder, options->folder) == NULL)
		fail(folder);
}

/*
 * Goes on in a child, of a session of its own. The parent ends when the child has said, by a byte, that the door is there, or has ended.
 * Returns the child's end of that pipe.
 */
static int become_daemon(void)
{
	int ends[2];
	char byte;
	pid_t pid;

	if (pipe(ends) == -1)
		fail("pipe");
	pid = fork();
	if (pid == -1)
		fail("fork");
	if (pid > 0) {
		(void)close(ends[1]);
		_exit(read(ends[0], &byte, 1) == 1 ? 0 : 1);
	}
	(void)close(ends[0]);
	(void)setsid();
	(void)umask(022);
	if (chdir("/") == -1)
		fail("/");
	return ends[1];
}

/* The door is there: what the daemon has to say from now on stands in its log. */
static void tell_parent(int ready)
{
	int null = open("/dev/null", O_RDWR);
	int stream;

	for (stream = 0; null != -1 && stream <= 2; stream++)
		(void)dup2(null, stream);
	if (null > 2)
		(void)close(null);
	if (write(ready, "", 1) != 1)
		log_line("nobody waits for the daemon");
	(void)close(ready);
}

static void wait_for_signals(const options_t *options, const sigset_t *signals)
{
	for (;;) {
		int signal_number = sigwaitinfo(signals, NULL);

		if (signal_number == SIGHUP) {
			cache_invalidate(NSC_PASSWD);
			cache_invalidate(NSC_GROUP);
			if (log_open(options->folder) == -1)
				log_line("the log stays the old one: %s", strerror(errno));
			log_line("reloaded");
		} else if (signal_number != -1) {
			return;
		}
	}
}

static int run(const options_t *options)
{
	sigset_t signals;
	int holder, ready = -1;

	if (!options->is_in_foreground)
		ready = become_daemon();
	holder = lock_take(options->folder);
	if (holder == -1)
		fail(NSC_PID_FILE);
	if (holder > 0) {
		(void)fprintf(stderr, "nscd: process %d is nscd of %s already\n", holder, options->folder);
		return 1;
	}
	if (log_open(options->folder) == -1)
		fail(NSC_LOG_FILE);
	/* All threads have these signals off: the first one waits for them. */
	(void)sigemptyset(&signals);
	(void)sigaddset(&signals, SIGHUP);
	(void)sigaddset(&signals, SIGINT);
	(void)sigaddset(&signals, SIGTERM);
	(void)pthread_sigmask(SIG_BLOCK, &signals, NULL);
	cache_begin(options->positive, options->negative);
	if (server_begin(options->folder, (int)options->threads) == -1)
		fail(NSC_DOOR);
	log_line("process %ld answers at %s/%s", (long)getpid(), options->folder, NSC_DOOR);
	if (ready != -1)
		tell_parent(ready);
	wait_for_signals(options, &signals);
	server_end(options->folder, 5);
	lock_end();
	log_line("process %ld ends", (long)getpid());
	return 0;
}

int main(int argc, char **argv)
{
	options_t options = { .positive = 600, .negative = 10, .threads = 8 };

	read_options(&options, argc, argv);
	if (options.administer == 0)
		return run(&options);
	if (nsc_use_folder(options.folder) != 0)
		usage();
	switch (options.administer) {
	case 'g':
		return admin_statistics();
	case 'i':
		return admin_invalidate(options.database);
	default:
		return admin_shutdown(options.folder);
	}
}
