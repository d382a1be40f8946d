/* doord.h: what the parts of doord share. One thread runs all of it. */
#ifndef DOORD_H
#define DOORD_H

#include "kernel_c.h"
#include "wire.h"

#include <stdbool.h>
#include <stddef.h>
#include <stdint.h>
#include <stdio.h>
#include <sys/types.h>

/* the library as programs are bound to it: its soname */
#define DOORD_LIBRARY "libdoor.so.1"

enum {
	DOORD_PLACES = 64,  /* processes of the kernel */
	DOORD_MEMBERS = 64, /* threads of the kernel */
	DOORD_ROWS = 256,   /* descriptors of a process */
	DOORD_SHAPES = 64,
	DOORD_NAME = 17,      /* a name of the kernel and its end */
	DOORD_PROCEDURES = 64, /* procedures of a process */
	DOORD_QUEUE = 32,     /* calls that may wait in a pool */
	DOORD_STRANGERS = 128, /* connections that have not said who they are */
	DOORD_MESSAGES = 512, /* messages of one program that are read before a request that may speak of them */
	DOORD_MESSAGES_AT_ONCE = 32, /* and where none does, before others have their turn */
	DOORD_UNREAD = 128 * 1024, /* bytes of messages that a program need not have read: those of all its threads have room */
};

/* statuses of doord itself, as env(1) and timeout(1) have them */
enum {
	DOORD_EVENTS = 122,  /* the history has as many events as it may have */
	DOORD_STALL = 124,   /* programs wait for each other */
	DOORD_FAILED = 125,
	DOORD_NO_EXECUTE = 126,
	DOORD_NO_COMMAND = 127,
};

/* What a descriptor of the kernel leads to. It is there as long as rows, paths, messages, bindings or calls hold it. */
struct object {
	unsigned holders;
	bool is_door;
	bool is_port;        /* that the program made; one that stands for a file is none */
	bool is_pipe;        /* an end of a pipe of the kernel, which a source has */
	unsigned sources;    /* of a port: as many of its holders are sources */
	bool is_revoked;     /* of a door */
	int file;            /* of an ordinary file, which a port of the kernel stands for: the file; else -1 */
	int place;           /* of a door: its process, and what its program said of it */
	uint32_t attributes;
	uint64_t number;     /* counted over all doors */
	uint64_t procedure, cookie;
	unsigned waiting;    /* of a private door: calls that no thread has accepted */
	uint64_t least, most; /* of a door: data-min and data-max, as its program has set them */
	uint64_t size;       /* of bytes that go beside the kernel: how many the file has */
};

/* Descriptors on their way. */
struct passage {
	unsigned count;
	struct object *object[WIRE_ITEMS];
	struct object *beside; /* the bytes of the message, where they go beside the kernel; else NULL */
};

enum member_kind { MEMBER_KEEPER, MEMBER_ORDINARY, MEMBER_SPARE };

/* unborn: its process, or a spare, has not begun; free: in store; lent: to the thread of a slot; spent: it is over */
enum member_life { MEMBER_UNBORN, MEMBER_FREE, MEMBER_LENT, MEMBER_SPENT };

/* A thread of the kernel. */
struct member {
	enum member_kind kind;
	enum member_life life;
	int place;
	struct slot *slot;     /* whose thread it is lent to */
	struct object *bound;  /* the door that it is bound to */
	bool in_service;       /* it runs an invocation */
	bool waits_to_serve;
	bool awaits;           /* it waits for a path */
	bool gets;             /* it waits at a port */
	bool is_ready;         /* it stands among those that may go on */
	uint32_t serves;       /* the call of its invocation; 0 of a notice, or where there is none */
	uint32_t invocation;   /* the number of the request that was answered by it */
	bool is_left;          /* the client has left that call, and the kernel was not asked yet whether the server is told */
	bool is_to_be_told;    /* it is, and was not yet */
	uint32_t calls;        /* the call that it waits for, or 0 */
	bool is_accepted;      /* that call was accepted, or has left the pool */
	struct object *called; /* the door of that call */
	struct passage sent, results;
};

/*
 * What a program has associated with a port, or had: a pipe of the kernel stands for its descriptor, and the bytes that
 * are in it say that this is ready.
 */
struct source {
	bool is_associated;      /* and its event was not taken */
	bool is_ready;           /* the pipe holds a byte */
	uint32_t fd, bits;       /* the program's, WIRE_NO_FD for none; what poll(2) said as it became ready */
	uint64_t serial;         /* counts associations: what is said of an earlier one is too late */
	uint32_t read, write;    /* rows of the pipe's ends: */
	struct object *reader, *writer; /* what they are, NULL where there is no pipe */
	struct object *port;
};

/* A timer that tells a port. */
struct timer {
	bool is_there, is_armed;
	uint64_t due, interval; /* when it tells next, by the kernel's clock; 0: once */
};

/* A process of the kernel: a place for programs, one after the other. */
struct place {
	char program[WIRE_NAME]; /* the shape's: the one program that may have it, or * */
	char occupant[WIRE_NAME]; /* the program that had it last */
	char name[DOORD_NAME];   /* empty until the first program has it */
	int parent;              /* whose fork begins it; 0 of those that init begins */
	uint32_t token;          /* of a child that has begun and has not come: nobody else has it; else 0 */
	uint64_t orphaned;       /* when the parent of such a child ended without a word of it; else 0 */
	bool is_born, is_spent;
	struct client *client;   /* who has it */
	int first, keeper, last; /* its members */
	unsigned doors;          /* that its client made */
	unsigned waiting;        /* calls of its common pool that no thread has accepted */
	unsigned procedures;
	unsigned limits_told;    /* bits of enum limit: what was said of its program */
	bool is_full_told;       /* that it has too little of something was said */
	bool is_unserved_told;   /* that calls wait and nobody can serve them was said */
	struct object *row[DOORD_ROWS];
	unsigned rows;
	/*
	 * Of a child that has not sent its own pipes yet: those that stood for its descriptors in its parent when the
	 * kernel forked, 0 where one had not come. Until the system forks, too, the parent's other threads go on.
	 */
	bool is_renewing;
	uint32_t inherited[DOORD_ROWS];
	struct source source[WIRE_SOURCES];
	struct timer timer[WIRE_TIMERS];
};

/* Files that came by a control socket, for a request that is still to come. */
struct parcel {
	uint32_t number;
	unsigned count;
	bool is_short; /* doord had no room for all of them */
	int file[WIRE_ITEMS];
};

/* A thread's slot, on this side. */
struct slot {
	struct client *client;
	unsigned index;
	int member;          /* the kernel's thread that is lent to it, or 0 */
	bool is_busy;        /* a request was taken and not answered */
	bool is_held;        /* its call is held back until there is room in the pool */
	bool is_replied;     /* a reply stands in its page, to be handed over */
	unsigned files;      /* that go with the reply */
	int file[WIRE_REPLY_FILES];
	struct wire_request request;
};

/* what the loop watches */
enum watch_kind { WATCH_LISTEN, WATCH_SIGNALS, WATCH_CONTROL, WATCH_BELL, WATCH_DEATH, WATCH_STAND_IN };

struct watch {
	enum watch_kind kind;
	struct client *client;
	unsigned row;
};

struct stand_in {
	int end;          /* the reading end of a pipe whose writing end the program has, or -1 */
	uint32_t pipe;    /* its number */
	bool is_expected; /* the program was told of the descriptor, and is to send it */
	bool is_missed;   /* it came, and doord had no room for it */
	struct watch watch;
};

/* A program that is connected, or one that a fork announced. */
struct client {
	struct client *next;
	pid_t pid;
	int control, bell, death; /* -1 where there is none */
	uid_t euid, ruid;
	gid_t egid, rgid;
	int place; /* 0 as long as it has none */
	bool is_gone;
	unsigned spawn; /* server threads that it is still to make */
	unsigned expected; /* stand-ins that it is still to send */
	unsigned files_kept, most_files; /* of its parcels */
	bool is_odd_told; /* that a stand-in of it is none was said */
	bool is_lost_told; /* that files could not be handed over was said */
	struct wire_area *area;
	struct watch on_control, on_bell, on_death;
	/* of one that has a place */
	struct stand_in *stand_in; /* DOORD_ROWS */
	struct slot *slot;         /* WIRE_SLOTS */
	struct parcel **parcel;    /* WIRE_SLOTS: the files of the next request of each */
};

/* A path to which doors are attached. */
struct path {
	char *text;
	struct object *door; /* that is attached, or NULL */
	int file;            /* the attached file, opened by its path alone, or -1: */
	uint64_t device, inode;
};

struct shape {
	char program[WIRE_NAME];
	unsigned threads, spares, children;
};

struct options {
	struct shape shape[DOORD_SHAPES];
	unsigned shapes;
	unsigned limit;
	unsigned patience; /* milliseconds that those are waited for who may come back by themselves */
	const char *history, *socket;
	bool eagain, no_preload, stay, takes_long;
	char **command;
};

/* The one kernel, and all that doord knows of it. */
struct doord {
	struct options options;
	int places, members; /* as many as there are; numbered from 1, init is place 1 and member 1 */
	struct place place[DOORD_PLACES + 1];
	struct member member[DOORD_MEMBERS + 1];
	struct path path[WIRE_PATHS];
	unsigned paths, attached;
	struct client *clients, *gone;
	unsigned strangers;
	int reserve; /* a descriptor that is given up where none is free */
	struct slot **held; /* calls that are held back, in their order */
	size_t held_count, held_room;
	struct slot **replied; /* slots whose replies are to be handed over */
	size_t replied_count, replied_room;
	uint64_t doors;
	unsigned calling; /* threads that wait in a call */
	int epoll, listener, signals;
	pid_t command;
	bool command_ended, no_children;
	int command_status;
	bool is_full; /* the history has its last event */
	bool is_stalled; /* programs wait for each other, and nobody ends that */
	struct wire_table *table; /* for programs to read; nothing in it is believed here */
	char folder[64]; /* of the socket and the table, where doord made it; else empty */
	char socket_path[108], table_path[160];
	char library[4096]; /* the folder of DOORD_LIBRARY */
};

extern struct doord doord;

/* doord_options.c */
void read_options(int count, char **words, struct options *options);
void complain(const char *form, ...) __attribute__((format(printf, 1, 2)));
_Noreturn void fail(const char *form, ...) __attribute__((format(printf, 1, 2)));

/* doord_kernel.c: turns of the kernel, and the history */

/* what is asked; data and items where there are any */
struct asked {
	uint32_t op, a, b;
	uint64_t c, d;
	const uint8_t *data;
	size_t data_size;
	const uint64_t *item;
	size_t items;
};

/* the answer of the last turn */
struct answer {
	uint64_t kind, number[5];
	size_t data_size, items;
	const uint8_t *data;
	const uint64_t *item;
};

extern struct answer answer;

void open_kernel(void);
/* whether the turn was taken; where it was not nothing was done, and `answer` is a failure */
bool enter_kernel(int member, const struct asked *asked);
bool end_wait(int member);
bool can_go_on(int member);
bool is_running(int member);
/* whether the line was taken */
bool declare(const char *form, ...) __attribute__((format(printf, 1, 2)));
void remark(const char *form, ...) __attribute__((format(printf, 1, 2)));
void write_history(void);
void close_history(void);
int host_error(uint64_t kernel_error);

/* doord_places.c: processes and threads of the kernel, lent to those of programs */
void lay_out_places(void);
int find_place(const char *program);
bool begin_place(int place, const char *program);
void name_place(int place, const char *program);
void adopt_child(int place, int parent);
int find_child(int parent);
int lend_member(struct slot *slot, bool to_serve);
void store_member(int member);
void member_woken(int member);
bool is_waiting(const struct member *member);
void name_member(int member, char *name);
void place_full(int place, const char *what);
void see_that_served(int place);
void see_places_left(void);
void no_place(const char *program);

/* doord_limits.c: limits that are said where a program meets them */
enum limit { LIMIT_ROWS, LIMIT_QUEUE, LIMIT_PROCEDURES, LIMIT_PATHS, LIMIT_SOURCES };

void tell_limit(int place, enum limit limit);
bool is_news(const char *program);

/* doord_objects.c: what descriptors lead to */
struct object *new_object(void);
void hold(struct object *object);
void drop(struct object *object);
void set_row(int place, uint64_t fd, struct object *object);
void clear_row(int place, uint64_t fd);
struct object *row_of(int place, uint64_t fd);
void drop_passage(struct passage *passage);

/* doord_requests.c: what programs ask */
void take_requests(struct client *client);
void answer_request(struct slot *slot);
void reply_error(struct slot *slot, int error);
void tell_descriptor(struct slot *slot, struct wire_reply *reply);
void see_descriptor(struct slot *slot);
void hand_over(void);
struct wire_reply *begin_reply(struct slot *slot, uint64_t kind);
void unbind_member(int member);

/* doord_calls.c: calls and returns, and the ends of waits */
void ask_call(struct slot *slot, int member);
void ask_return(struct slot *slot, int member);
void ask_wait(struct slot *slot, int member);
void interrupt_slot(struct slot *slot);
void forget_call(struct member *member);
void go_on(int member);
void set_ready(int member);
void settle(void);
void hold_back(struct slot *slot);
void let_go(struct slot *slot);

/* doord_ports.c: event ports */
void ask_port_create(struct slot *slot, int member);
void ask_send(struct slot *slot, int member);
void ask_send_many(struct slot *slot, int member);
void ask_get(struct slot *slot, int member);
void tell_events(struct slot *slot);
bool is_any_timed(void);

/* doord_sources.c: descriptors of programs that are associated with ports */
void ask_associate(struct slot *slot, int member);
void ask_dissociate(struct slot *slot, int member);
void ask_ready(struct slot *slot);
void ask_forget(struct slot *slot);
void tell_source(int place, struct wire_event *event);
void forget_sources(int place);
void close_pipes(int child);

/* doord_timers.c: timers that tell ports, and the kernel's clock */
void ask_timer(struct slot *slot, int member);
bool is_any_armed(void);
int time_for_timers(void);
void run_timers(void);
void end_timers(int place, bool is_killed);

/* doord_long.c: messages of more bytes than the kernel takes */
void tell_long(void);
int put_beside(struct slot *slot, int file, struct object **beside);
void pad_beside(struct slot *slot, const struct object *door);
bool is_refused_beside(const struct slot *slot, const struct object *door, const struct object *beside);
void ask_parameter_beside(struct asked *asked, const struct member *member, const struct object *door);
void follow_parameter(const struct wire_request *request, struct object *door);
void tell_parameter(struct wire_reply *reply, const struct wire_request *request, const struct object *door);

/* doord_cancel.c: servers whose clients have left */
void client_left(uint32_t call);
void ask_left(void);
void tell_left(void);
void forget_left(struct member *server);

/* doord_paths.c */
bool is_valid(const struct object *door);
void open_table(void);
void ask_attach(struct slot *slot, int member);
void ask_detach(struct slot *slot, int member);
void ask_open(struct slot *slot, int member);
void ask_await(struct slot *slot, int member);
void tell_validity(void);

/* doord_forks.c */
void ask_fork(struct slot *slot, int member);
void fork_failed(struct slot *slot);
void forked(const struct client *parent, uint32_t token, pid_t pid);
int place_of_token(uint32_t token);
bool is_inherited(const struct client *child, uint32_t row, uint32_t pipe);
void pipe_came(int parent, uint32_t row, uint32_t pipe);
void renewed(struct client *child);
void orphan_children(int parent);
int time_for_orphans(void);
void end_orphans(void);

/* doord_connections.c */
void take_connection(void);

/* doord_clients.c: programs that come and go */
void take_messages(struct client *client);
void take_some_messages(struct client *client);
void end_client(struct client *client);
void close_stand_in(struct client *client, unsigned row);
void expect_stand_in(struct client *client, uint64_t row);
void stand_in_gone(struct client *client, unsigned row);
bool stands_for(const struct client *client, uint32_t row, uint32_t pipe, uint32_t bits);
struct client *new_client(pid_t pid, int death);
void free_gone(void);
void send_files(struct slot *slot);
int take_parcel(struct slot *slot, int *file, unsigned count);

/* doord_files.c: files of programs */
void close_file(int file);
void close_files(const int *file, unsigned files);
unsigned most_files_kept(void);

/* doord_ends.c */
void end_place(int place);
void close_row(int member, uint64_t fd);

/* doord_command.c */
void take_over_signals(void);
void start_command(void);
void take_signals(void);
void take_ends(void);

/* doord_look.c: what the system says of the processes below doord */
enum { LOOK_THREADS = 4096 };

struct seen {
	pid_t process, thread;
	unsigned long switches; /* 0 of one that waits for doord */
};

struct look {
	bool is_still;   /* nobody runs */
	bool is_outside; /* somebody may come back by himself, or in a read, or at descriptors */
	bool is_movable; /* the same, but for a read or a write at a pipe that nobody outside has; or somebody is stopped, or has timers */
	unsigned count;
	struct seen seen[LOOK_THREADS];
};

void note_pipes(void);
bool sleeps_inside(pid_t process, const char *call);
pid_t parent_of(pid_t pid);
bool is_below(pid_t pid);
void each_below(void (*act)(pid_t pid, void *with), void *with);
void look_at_all(struct look *look);
bool is_same_look(const struct look *a, const struct look *b);

/* doord_still.c: whether all is quiet, so that a turn may be chosen, or time may pass */
enum stillness {
	STILL_NOT,     /* somebody runs, or is about to */
	STILL_OUTSIDE, /* all sleep, and some for a time, in a read, at descriptors or stopped, and not yet for as long as patience says */
	STILL_LONG,    /* the same, but for so long: they are waited for no more */
	STILL_ALL,     /* all sleep, for doord or for each other */
};

/*
 * Does not wait. Where it is not STILL_NOT there was a moment in this call at which each thread of each process below doord slept: until
 * doord answers, or a time is over, or somebody outside does something, nobody wakes. What was asked before that moment stands in the pages
 * and sockets, and may not have been taken. `waited` is since when, by now(), those outside are waited for at least.
 */
enum stillness look_still(uint64_t waited);
unsigned rank_below(pid_t pid);

/* doord_quiet.c: the end of what COMMAND left behind */
uint64_t now(void);
void note_activity(void);
int time_to_look(void);
void look_around(void);
void tell_all_below(int signal_number);
void end_programs(void);

/* doord_stall.c: calls that nobody will ever answer */
void forget_quiet(void);
int time_to_stall(void);
void look_for_stall(uint64_t time);
void tell_stall(void);
void end_unused_threads(void);

/* doord.c */
void remove_files(void);
bool watch(int fd, struct watch *watch, uint32_t events);
void unwatch(int fd);

#endif
