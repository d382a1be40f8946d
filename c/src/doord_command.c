/* doord_command.c: the command that doord runs, and what the system tells doord of its processes. */
#include "doord.h"

#include <errno.h>
#include <fcntl.h>
#include <signal.h>
#include <stdlib.h>
#include <string.h>
#include <sys/prctl.h>
#include <sys/resource.h>
#include <sys/signalfd.h>
#include <sys/wait.h>
#include <unistd.h>

/* signals that doord takes in its loop, and what there was before, with which the command begins */
static sigset_t taken, blocked;
static struct sigaction on_pipe, on_size;
static struct rlimit files;

/* A variable of the environment with this before what it has. */
static bool put_before(const char *name, const char *first)
{
	const char *old = getenv(name);
	char *value = NULL;

	if (old && *old) {
		size_t size = strlen(first) + strlen(old) + 2;
		value = malloc(size);
		if (!value)
			return false;
		snprintf(value, size, "%s:%s", first, old);
	}
	int done = setenv(name, value ? value : first, 1);
	free(value);
	return done == 0;
}

static bool prepare_environment(void)
{
	char library[sizeof doord.library + sizeof "/" DOORD_LIBRARY];

	snprintf(library, sizeof library, "%s/" DOORD_LIBRARY, doord.library);
	bool done = setenv(WIRE_SOCKET, doord.socket_path, 1) == 0 && setenv(WIRE_TABLE, doord.table_path, 1) == 0
		&& put_before("LD_LIBRARY_PATH", doord.library);
	return done && (doord.options.no_preload || put_before("LD_PRELOAD", library));
}

static _Noreturn void run_command(int report)
{
	sigaction(SIGPIPE, &on_pipe, NULL);
	sigaction(SIGXFSZ, &on_size, NULL);
	sigprocmask(SIG_SETMASK, &blocked, NULL);
	setrlimit(RLIMIT_NOFILE, &files);
	if (prepare_environment())
		execvp(doord.options.command[0], doord.options.command);
	int error = errno;
	(void)!write(report, &error, sizeof error);
	_exit(error == ENOENT ? DOORD_NO_COMMAND : DOORD_NO_EXECUTE);
}

/* doord holds a descriptor for each of its programs' */
static void raise_files(void)
{
	struct rlimit most;

	if (getrlimit(RLIMIT_NOFILE, &files) < 0)
		fail("the limit of descriptors: %s", strerror(errno));
	most = files;
	most.rlim_cur = most.rlim_max < 65536 ? most.rlim_max : 65536;
	if (most.rlim_cur > files.rlim_cur)
		(void)setrlimit(RLIMIT_NOFILE, &most);
}

/* Those that would end doord by what they do where nobody takes them; it has its files to remove, and programs that depend on it. */
static void choose_signals(void)
{
	static const int some[] = { SIGCHLD, SIGTERM, SIGHUP, SIGINT, SIGQUIT, SIGUSR1, SIGUSR2, SIGALRM, SIGVTALRM, SIGPROF, SIGXCPU, SIGIO, SIGPWR, SIGSTKFLT };

	sigemptyset(&taken);
	for (unsigned i = 0; i < sizeof some / sizeof *some; i++)
		sigaddset(&taken, some[i]);
	for (int number = SIGRTMIN; number <= SIGRTMAX; number++)
		sigaddset(&taken, number);
}

void take_over_signals(void)
{
	choose_signals();
	/* what cannot be written is told by write(2) */
	const struct sigaction ignored = { .sa_handler = SIG_IGN };
	if (sigprocmask(SIG_BLOCK, &taken, &blocked) < 0 || sigaction(SIGPIPE, &ignored, &on_pipe) < 0 || sigaction(SIGXFSZ, &ignored, &on_size) < 0)
		fail("signals: %s", strerror(errno));
	doord.signals = signalfd(-1, &taken, SFD_CLOEXEC | SFD_NONBLOCK);
	if (doord.signals < 0)
		fail("signals: %s", strerror(errno));
}

/* A child that cannot be executed says why, by a pipe that exec(2) closes. */
void start_command(void)
{
	int report[2], error = 0;

	raise_files();
	if (prctl(PR_SET_CHILD_SUBREAPER, 1) < 0 || pipe2(report, O_CLOEXEC) < 0)
		fail("the command cannot be started: %s", strerror(errno));
	doord.command = fork();
	if (doord.command < 0)
		fail("the command cannot be started: %s", strerror(errno));
	if (doord.command == 0)
		run_command(report[1]);
	close(report[1]);
	if (read(report[0], &error, sizeof error) == (ssize_t)sizeof error)
		complain("%s: %s", doord.options.command[0], strerror(error));
	close(report[0]);
}

void take_ends(void)
{
	for (;;) {
		int status;
		pid_t pid = waitpid(-1, &status, WNOHANG);
		if (pid == 0)
			return;
		if (pid < 0) {
			doord.no_children = errno == ECHILD;
			return;
		}
		if (pid == doord.command) {
			doord.command_ended = true;
			doord.command_status = WIFEXITED(status) ? WEXITSTATUS(status) : 128 + WTERMSIG(status);
		}
	}
}

/*
 * doord ends when all others have, so it hands on what asks it to end. A terminal's SIGINT and SIGQUIT come to COMMAND by themselves; but a
 * shell keeps them from what it runs in the background, so what is left behind is told to end.
 */
static void hand_on(int signal_number)
{
	if (signal_number != SIGINT && signal_number != SIGQUIT)
		tell_all_below(signal_number);
	else if (doord.command_ended)
		tell_all_below(SIGTERM);
}

void take_signals(void)
{
	struct signalfd_siginfo told;

	while (read(doord.signals, &told, sizeof told) == (ssize_t)sizeof told)
		if (told.ssi_signo != SIGCHLD)
			hand_on((int)told.ssi_signo);
	take_ends();
}
