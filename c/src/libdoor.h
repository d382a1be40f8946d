/* libdoor.h: what the parts of libdoor share. libdoor lets a program call doors by a broker, doord(1). */
#ifndef LIBDOOR_H
#define LIBDOOR_H

#include "kernel_c.h"
#include "wire.h"

#include <door.h>
#include <setjmp.h>
#include <signal.h>
#include <stdbool.h>
#include <stddef.h>
#include <stdint.h>
#include <sys/stat.h>
#include <sys/time.h>
#include <sys/types.h>
#include <time.h>

/* All is hidden but what a program calls. */
#define EXPORT __attribute__((visibility("default")))

enum {
	LIBDOOR_DATA = 4096,         /* the most bytes of a message */
	LIBDOOR_PASSED = 16,         /* the most descriptors of a message */
	LIBDOOR_DESCRIPTORS = 65536, /* a descriptor that stands for one of the kernel is below this */
	LIBDOOR_NO_BROKER = 125,     /* the status of a program whose broker has gone */
};

_Static_assert(sizeof(uintptr_t) == 8 && sizeof(long) == 8, "libdoor is for systems of 64 bits");
_Static_assert((int)LIBDOOR_DATA <= (int)WIRE_REPLY && (int)LIBDOOR_DATA < (int)WIRE_DATA, "a message, and one byte too many, have room");
_Static_assert((int)LIBDOOR_PASSED <= (int)WIRE_PASSED && (int)LIBDOOR_PASSED < (int)WIRE_ITEMS, "and so have its descriptors");

/* libdoor_real.c: the system's own functions, behind those that libdoor stands before */
int real_openat(int directory, const char *path, int flags, mode_t mode);
int real_close(int fd);
int real_close_range(unsigned first, unsigned last, int flags);
int real_dup(int fd);
int real_dup2(int from, int to);
int real_dup3(int from, int to, int flags);
int real_fcntl(int fd, int command, void *argument);
int real_fstat(int fd, struct stat *found);
int real_fstatat(int directory, const char *path, struct stat *found, int flags);
int real_statx(int directory, const char *path, int flags, unsigned mask, struct statx *found);
int real_unlink(const char *path);
int real_unlinkat(int directory, const char *path, int flags);
int real_remove(const char *path);
int real_renameat(int from_directory, const char *from, int to_directory, const char *to);
int real_renameat2(int from_directory, const char *from, int to_directory, const char *to, unsigned flags);
pid_t real_fork(void);
int real_daemon(int keeps_folder, int keeps_streams);
unsigned real_alarm(unsigned seconds);
useconds_t real_ualarm(useconds_t first, useconds_t next);
int real_setitimer(int which, const struct itimerval *value, struct itimerval *old);
int real_timer_create(clockid_t clock, struct sigevent *how, timer_t *timer);
int real_timer_settime(timer_t timer, int flags, const struct itimerspec *value, struct itimerspec *old);
int real_timer_gettime(timer_t timer, struct itimerspec *value);
int real_timer_getoverrun(timer_t timer);
int real_timer_delete(timer_t timer);
int real_sigaction(int number, const struct sigaction *action, struct sigaction *old);
int real_setcancelstate(int state, int *old);

enum real_signal { REAL_SIGNAL, REAL_BSD_SIGNAL, REAL_SSIGNAL, REAL_SYSV_SIGNAL, REAL_OTHER_SYSV_SIGNAL, REAL_SIGSET, REAL_SIGNALS };

sighandler_t real_signal(enum real_signal which, int number, sighandler_t handler);

/* libdoor_lock.c: the lock, signals that are kept off, sleeping, and lines for the user */

/* Signals by their bits: all, without those that the threads' library keeps for itself, and those that a fault makes. */
#define SIGNAL_BIT(number) (1ull << ((number) - 1))
#define SIGNALS_OF_THREADS (SIGNAL_BIT(32) | SIGNAL_BIT(33))
#define SIGNALS_OF_FAULTS \
	(SIGNAL_BIT(SIGSEGV) | SIGNAL_BIT(SIGBUS) | SIGNAL_BIT(SIGFPE) | SIGNAL_BIT(SIGILL) | SIGNAL_BIT(SIGTRAP) | SIGNAL_BIT(SIGSYS))
#define SIGNALS_ALL (~SIGNALS_OF_THREADS)

uint64_t set_mask(uint64_t mask);
uint64_t take_lock(void);
void give_lock(uint64_t mask);
int futex_wait(_Atomic uint32_t *word, uint32_t value, const struct timespec *most);
void say(const char *line);
void say_once(_Atomic int *said, const char *line);

/* libdoor_connect.c: the connection to doord */
struct connection {
	_Atomic bool is_open;
	_Atomic uint32_t generation;    /* how many forks lie between this process and the first; threads of another one do not go on */
	_Atomic int control, bell, poller; /* descriptors that are kept from the program, or -1 */
	_Atomic pid_t pid;
	_Atomic uint32_t most;          /* bytes of a message, where doord takes more than the kernel; else 0 */
	struct wire_area *area;
	_Atomic bool *mark;             /* in memory that is empty in a child, however that is made */
};

extern struct connection connection;

int connect_broker(uint32_t token);
int open_connection(void);
void disconnect_child(void);
int send_message(const struct wire_message *message, const int *file, unsigned files);
_Noreturn void broker_is_gone(void);
void look_for_broker(void);

/* Whether the connection is this process's, and not the one of a parent by vfork(2). */
bool is_connected_here(void);
int refuse_child(void);
int move_high(int fd);

static inline bool is_kept(int fd)
{
	return fd >= 0 && (fd == atomic_load_explicit(&connection.control, memory_order_relaxed)
		|| fd == atomic_load_explicit(&connection.bell, memory_order_relaxed)
		|| fd == atomic_load_explicit(&connection.poller, memory_order_relaxed));
}

/* libdoor_alarm.c */
bool is_alarm_set(void);
void tell_alarm(void);

/* libdoor_files.c: ordinary files that are passed */
int send_files(uint32_t slot, uint32_t number, const int *file, unsigned files);
void receive_files(uint32_t slot, uint32_t number, int *file, unsigned files);
void forget_files(void);

/*
 * libdoor_threads.c: threads.
 *
 * What a thread is at decides what a handler of signals finds (libdoor_signals.c), and by whom the handler's own requests are made: by the
 * thread where it is in the program, and else by another slot.
 */
enum at {
	AT_PROGRAM = 0, /* in the program */
	AT_REQUEST,     /* with its slot: handlers are put off */
	AT_CALL,        /* in a call's wait, which a handler ends before it runs */
	AT_WAIT,        /* in another wait, which goes on behind a handler */
};

struct ask;
struct service;
struct stand_in;
struct given;

struct thread {
	volatile int at;
	struct wire_slot *slot;    /* NULL where it has none */
	uint32_t index, generation; /* of the slot */
	struct ask *ask;           /* the request in whose wait it is */
	volatile int put_off;      /* a signal whose handler was put off, or 0 */
	siginfo_t signal;
	uint64_t mask_put_off;
	uintptr_t handler;         /* the frame from which the outermost handler runs, or 0 */
	uintptr_t stack, stack_end; /* of handlers, sigaltstack(2), as that handler began */
	struct service *service;   /* where its invocations begin, at this place; NULL where it has none */
	jmp_buf place;
	bool is_of_library;        /* it waits for calls with all signals kept off, and has this mask in a procedure */
	bool is_unmasked;          /* it has it now */
	uint64_t mask;
	void *argument;            /* of the invocation, where it was long and has a mapping of its own; else NULL */
	size_t argument_size;
	bool is_serving;           /* it runs a procedure */
	bool is_cancel_disabled;
	bool is_borrower;          /* the wait of another thread was lent to it (libdoor_lend.c) */
	bool has_given_back;       /* and is that thread's again */
	struct given *given;       /* what it was given and does not have yet (libdoor_given.c); NULL for nothing */
	struct given *spare;       /* memory for the next */
};

extern __thread struct thread thread __attribute__((tls_model("initial-exec")));

static inline void set_at(enum at at)
{
	atomic_signal_fence(memory_order_seq_cst);
	thread.at = at;
	atomic_signal_fence(memory_order_seq_cst);
}

int make_thread_key(void);
int take_slot(void);
struct wire_slot *borrow_slot(uint32_t *index);
void give_slot_back(uint32_t index);
void have_slot(uint32_t index);
void forget_threads(void);
bool is_in_handler(void);
bool is_frame_left(uintptr_t frame);
bool is_program_there(void);
bool is_on_stack_of_handlers(uintptr_t address);
bool is_in_program(void);
bool is_any_slot_taken(void);

/* libdoor_ask.c: a request and its answer */
struct ask {
	struct wire_slot *slot;
	struct wire_request *request;
	const struct wire_reply *reply; /* once it is there */
	uint32_t index, number, generation;
	bool is_borrowed;
	struct sent *sent;     /* of a call or return: what is released with it */
	struct kept *kept;     /* of a call: where its answer is kept while a handler runs */
	volatile bool is_kept;
	const struct timespec *end; /* when the wait ends, by CLOCK_MONOTONIC; NULL: never by itself */
	bool is_late;          /* that has passed, and doord was told so */
	volatile bool is_lent; /* its wait is another thread's for now (libdoor_lend.c) */
	uint32_t a, b;         /* of a simple request's answer */
	uint64_t c, d, e;
};

struct came {
	unsigned count;
	struct wire_passed passed[WIRE_PASSED];
	int fd[WIRE_PASSED]; /* of the program: files, and the stand-ins that are made; else -1 */
	bool is_beside; /* the bytes came as a file: */
	int beside;     /* that is -1 where this process had no room for it */
	bool is_noted;  /* in memory of the thread (libdoor_given.c) */
};

struct kept {
	struct wire_reply reply;
	struct came room, *came;
};

int begin_ask(struct ask *ask, uint32_t op);
void give_up_ask(struct ask *ask);
int wait_answer(struct ask *ask, enum at at);
int wait_on(struct ask *ask, enum at at);
void resume_ask(struct ask *ask);
void rouse(uint32_t index);
void end_ask(struct ask *ask);
int ask_simply(struct ask *ask);
int ask_about(uint32_t op, uint32_t a);
int ask_about_descriptor(uint32_t op, const struct stand_in *it);
void end_call_for_handler(struct ask *ask);
void release_in_wait(struct ask *ask);
void wait_anew(struct ask *ask);

/* libdoor_message.c: what goes with calls and returns */
struct sent {
	unsigned count;
	int fd[LIBDOOR_PASSED + 1];
	bool is_released[LIBDOOR_PASSED + 1];
};

int put_message(struct ask *ask, struct sent *sent, const char *data, size_t size, const door_desc_t *desc, uint_t count);
void release_sent(struct sent *sent);
struct came *take_came(struct ask *ask, struct came *room);
int place_came(struct came *came, door_desc_t *desc);

/* libdoor_given.c: what came, and a handler of signals may jump away from */
struct came *note_came(struct came *came);
void forget_came(struct came *came);
void drop_came(struct came *came);
struct given *begin_over_given(uintptr_t handler);
void end_over_given(struct given *given);
void drop_given(bool is_end);
void forget_given(void);

/* libdoor_long.c: messages of more bytes than the kernel takes */
int write_beside(const char *data, size_t size);
int read_beside(int file, char *to, size_t size);
size_t size_beside(int file);
void close_beside(int file);
char *take_argument(int file, size_t *size);
void forget_argument(void);

/* libdoor_descriptors.c: descriptors of the program that stand for those of the kernel */

/* Of the flags of a stand-in, beside those of open(2): it stands for a port. */
enum { STAND_IN_PORT = 1 << 30 };

/* What a descriptor is: the kernel's number, WIRE_NO_FD for none; the pipe that stands for it; and what fcntl(2) tells of it. */
struct stand_in {
	uint32_t row, pipe;
	int flags; /* the access mode, O_CLOEXEC, O_NONBLOCK, O_APPEND and STAND_IN_PORT */
	bool is_dead; /* it stood for one in the parent of this process, which has none of them */
};

struct stand_in stand_in_at(int fd);
bool may_be_stand_in(int fd);
bool is_stand_in_found(int fd, const struct stat *found);
void tell_dead(const struct stand_in *it);
void name_descriptor(struct wire_request *request, const struct stand_in *it);
void set_flags(int fd, int which, int flags);
int new_pipe(int *end);
void close_pipe(const int *end);
int new_stand_in(uint32_t row, int flags);
int new_stand_in_at(uint32_t row, int flags, int fd, int *end);
int new_stand_in_above(uint32_t row, int flags, int least);
struct stand_in take_stand_in(int fd);
bool forget_stand_in(int fd);
void renew_stand_ins(bool have_rows);
int next_stand_in(int from);

/* libdoor_timers.c: timers that tell ports */
uintptr_t timer_told(uint64_t number, uint32_t times);
void forget_timers(void);

/* libdoor_sources.c: descriptors that are associated with ports */
void report_ready(void);
void close_source(int fd);
int next_source(int from);
void forget_sources(void);

/* libdoor_paths.c */

/* What stands in the table of a file to which a door is attached; else NULL. */
const struct wire_path *attached_to(const struct stat *found);
bool are_any_attached(void);
EXPORT int libdoor_await(const char *path, long most);

/* libdoor_serve.c: invocations */
int serve_on(void);
void let_signals_in(void);

/* libdoor_servers.c: server threads */
void make_servers(void);
void owe_servers(uint32_t count);
void pool_is_empty(uint32_t number);
void forget_servers(void);
bool has_own_servers(void);
void make_server_for(door_info_t *info);
void hand_wait_on(uint32_t index);
int make_heir(uint32_t index, uint64_t mask, bool is_borrower);

int make_own_thread(void *(*body)(void *), void *argument);

/* libdoor_lend.c: the wait of a thread whose handler makes a call */
int lend_wait(void);
void take_wait_back(struct ask *ask);
bool leave_wait_lent(uint32_t index);
bool is_borrower(void);
bool is_wait_wanted(const struct ask *ask);
bool give_wait_back(void);
bool give_failure_back(void);
void begin_end(uint32_t index);
bool is_end_of_lease(uint32_t index);
void forget_leases(void);

/* libdoor_cancel.c: servers whose clients leave */
enum at_service { SERVICE_NONE, SERVICE_GOES_ON, SERVICE_TOLD };

void begin_service(uint32_t number);
enum at_service end_service(void);
void resume_service(enum at_service at);
void let_watcher_end(void);
void forget_service(void);

/* libdoor_doors.c: the doors of this process, by their numbers */
struct own_door {
	_Atomic bool is_there;
	door_server_procedure_t *procedure;
	void *cookie;
	_Atomic bool has_info;
	door_info_t info;
};

struct own_door *own_door(uint32_t number);
void forget_doors(void);

/* libdoor_symbols.c */
size_t name_procedure(door_server_procedure_t *procedure, char *name, size_t room);

/* libdoor_signals.c */
void wrap_handlers(void);
void run_put_off(void);

#endif
