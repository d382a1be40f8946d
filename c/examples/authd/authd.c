/*
 * authd: opens files and logs for programs that may not open them themselves, as FOLDER/authd.conf says who may have
 * what, and passes them the descriptor through a door, FOLDER/authd_door. SIGHUP makes it read its rules and open its
 * log anew, SIGTERM ends it.
 *
 * usage: authd [-d] FOLDER     -d: stays in the foreground, and says on the error stream what goes into its log
 */
#include <errno.h>
#include <fcntl.h>
#include <limits.h>
#include <signal.h>
#include <stdio.h>
#include <stdlib.h>
#include <string.h>
#include <sys/stat.h>
#include <unistd.h>

#include "authd.h"

static struct {
	char folder[PATH_MAX - 16], door[PATH_MAX], log[PATH_MAX], rules[PATH_MAX];
	bool is_in_foreground;
} own;

static void fail(const char *what)
{
	log_line("%s: %s", what, strerror(errno));
	exit(1);
}

static void read_options(int argc, char **argv)
{
	char folder[PATH_MAX];
	int option, bad = 0;

	while ((option = getopt(argc, argv, "d")) != -1) {
		if (option == 'd')
			own.is_in_foreground = true;
		else
			bad = 1;
	}
	if (bad || argc - optind != 1) {
		(void)fprintf(stderr, "usage: authd [-d] FOLDER\n");
		exit(2);
	}
	/* the daemon's own folder will be another one */
	if (realpath(argv[optind], folder) == NULL)
		fail(argv[optind]);
	if (strlen(folder) >= sizeof(own.folder)) {
		errno = ENAMETOOLONG;
		fail(argv[optind]);
	}
	(void)strcpy(own.folder, folder);
	(void)snprintf(own.door, sizeof(own.door), "%s/%s", own.folder, AUTH_DOOR);
	(void)snprintf(own.log, sizeof(own.log), "%s/authd.log", own.folder);
	(void)snprintf(own.rules, sizeof(own.rules), "%s/authd.conf", own.folder);
}

static void fork_and_go_on_in_child(void)
{
	pid_t pid = fork();

	if (pid == -1)
		fail("fork");
	if (pid > 0)
		_exit(0);
}

/* The second fork: no terminal becomes ours, since we lead no session. Nothing that we were given stays open. */
static void become_daemon(void)
{
	fork_and_go_on_in_child();
	(void)setsid();
	(void)signal(SIGHUP, SIG_IGN);
	fork_and_go_on_in_child();
	(void)umask(027);
	if (chdir("/") == -1)
		fail("/");
	log_close();
	closefrom(0);
	(void)open("/dev/null", O_RDWR);
	(void)dup2(0, 1);
	(void)dup2(0, 2);
	if (log_open(own.log) == -1)
		exit(1);
}

/*
 * At most one daemon a folder: the lock is gone with the process, however that ends. The descriptor stays open for
 * that.
 */
static int take_lock(int folder)
{
	int file = openat(folder, "authd.pid", O_RDWR | O_CREAT | O_CLOEXEC, 0644);

	if (file == -1 || lockf(file, F_TLOCK, 0) == -1 || ftruncate(file, 0) == -1 ||
	    dprintf(file, "%ld\n", (long)getpid()) < 0)
		fail("authd.pid");
	return file;
}

static void take_signal(int number)
{
	pipes_wake(number == SIGHUP ? 'h' : 't');
}

static void take_signals(void)
{
	struct sigaction action = { .sa_handler = take_signal, .sa_flags = SA_RESTART };

	(void)sigemptyset(&action.sa_mask);
	(void)sigaction(SIGHUP, &action, NULL);
	(void)sigaction(SIGINT, &action, NULL);
	(void)sigaction(SIGTERM, &action, NULL);
	(void)signal(SIGPIPE, SIG_IGN);
}

static void reload(void)
{
	if (log_open(own.log) == -1)
		log_line("the log stays the old one: %s", strerror(errno));
	log_line(rules_load(own.rules) == 0 ? "reloaded" : "the rules stay as they were");
}

int main(int argc, char **argv)
{
	int folder, lock;

	read_options(argc, argv);
	/* what is wrong now is said to whoever starts the daemon */
	if (log_open(own.log) == -1)
		fail(own.log);
	if (rules_load(own.rules) == -1)
		return 1;
	if (!own.is_in_foreground)
		become_daemon();
	folder = open(own.folder, O_RDONLY | O_DIRECTORY | O_CLOEXEC);
	if (folder == -1)
		fail(own.folder);
	lock = take_lock(folder);
	if (pipes_begin() == -1)
		fail("pipe");
	take_signals();
	if (server_begin(folder, own.door) == -1)
		fail(own.door);
	log_line("process %ld answers at %s", (long)getpid(), own.door);
	while (pipes_serve() == 'h')
		reload();
	server_end(own.door);
	pipes_end();
	/* The pid is nobody's from now on. The file stays: the next daemon may have it open already. */
	(void)!ftruncate(lock, 0);
	log_line("process %ld ends", (long)getpid());
	return 0;
}
