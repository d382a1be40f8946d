/*
 * wire.h: what libdoor, in each program, and doord say to one another.
 *
 * A process has one control socket (SOCK_SEQPACKET) and one area of shared memory, in which each of its threads has a slot. A thread writes
 * its request into its slot, sets its bit in the area's `asked`, rings the process's bell (an eventfd), and sleeps on the slot's word
 * `turn`. doord copies the request, and wakes it with the reply. What carries descriptors goes by the control socket, and is sent before
 * the word of the slot that speaks of it.
 */
#ifndef WIRE_H
#define WIRE_H

#include <stdatomic.h>
#include <stdint.h>

enum {
	WIRE_VERSION = 2,
	WIRE_SLOTS = 128,
	WIRE_SLOT_WORDS = WIRE_SLOTS / 64,
	WIRE_DATA = 8192,  /* the most bytes of a request: a path's text, or a message as far as the kernel looks at it */
	WIRE_REPLY = 4096, /* the most bytes of a reply */
	WIRE_ITEMS = 32,   /* the most descriptors of a request */
	WIRE_PASSED = 16,  /* the most descriptors of a reply */
	WIRE_REPLY_FILES = WIRE_PASSED + 1, /* the most files of a reply: that of its bytes is one */
	WIRE_LONG = 1 << 24, /* the most bytes of a message that goes beside the kernel */
	WIRE_NAME = 64,
	WIRE_PATHS = 4096, /* the most paths that can be attached */
	WIRE_TIMERS = 32, /* the most timers of a program that tell ports */
	WIRE_SOURCES = 128, /* the most descriptors of a program that are associated with ports at once */
};

/* the variables of the environment by which a program finds doord: the socket's path, and that of the table of attached paths */
#define WIRE_SOCKET "DOORD_SOCKET"
#define WIRE_TABLE "DOORD_TABLE"

/* no descriptor of the kernel */
#define WIRE_NO_FD UINT32_MAX

/* whose a slot is */
enum {
	WIRE_MINE = 0,   /* the program's: nothing is asked */
	WIRE_ASKED = 1,  /* doord's: the thread does not sleep yet */
	WIRE_ASLEEP = 2, /* doord's: the thread sleeps on the word, and is to be woken */
	WIRE_TOLD = 3,   /* the program's: the reply is there */
};

/* what a request asks; those below 64 have the kernel's own numbers (kernel_c.h) */
enum {
	WIRE_LEAVE = 64,       /* the thread ends; its slot is free afterwards */
	WIRE_FORK_FAILED = 65, /* a: the token of a fork whose child was not made */
	WIRE_WAIT = 66,        /* waits for the end of the call or return that was answered by a wait (below) */
	WIRE_READY = 67,       /* a, c: as an association was answered, b poll(2)'s bits: its descriptor is ready */
	WIRE_FORGET = 68,      /* b: the program closes this descriptor of its own, which it has associated */
};

/* flags of a request */
enum {
	WIRE_KEEPER = 1, /* by the process's keeper, whatever the thread waits for */
	WIRE_WAITS = 8,  /* of a get: until there are events */
	WIRE_TIMED = 16, /* and the program ends the wait after a time, by `interrupted` */
	WIRE_TELLS_TAKEN = 2, /* of a return: it is answered as if something were released */
};

/*
 * Of a request and of a reply: the bytes go beside the kernel. They are the first file of the message, a memory that is
 * sealed against all changes, of more bytes than the kernel takes and at most WIRE_LONG. Only where the welcome says
 * that doord takes them.
 */
enum { WIRE_BESIDE = 4 };

/*
 * A request. Operands by operation, the others 0; descriptors are the kernel's, WIRE_NO_FD where there is none:
 *   create     a attributes, b number of the door in this process (from 1), c address of the procedure, d cookie; data: procedure's name
 *   call       a door, c size of the result buffer; data and items
 *   return     data and items
 *   revoke, bind, info, close, dup    a
 *   getparam   a, b kernel's number of the parameter;  setparam  also c
 *   attach     a, one file with the control socket: the path, opened with O_PATH; data: its text, absolute
 *   detach, open, await   c device, d inode of the file
 *   fork       the child may be made; a 1: not without the doors that there are; the reply's a is its token, 0 where it has no rows and
 *              is nobody yet
 *   port create
 *   send       a port, b events, c user value;  alert  also item 0: the kernel's number of what is done
 *   send many  b events, c user value, items: the ports
 *   associate  a port, b the program's descriptor, WIRE_NO_FD where it is not open, c user value, item 0: poll(2)'s bits for which it is ready
 *              already, 0 none, item 1: as below where it stands for one of the kernel, else WIRE_NO_FD; the reply's a and c name it
 *   dissociate a port, b the program's descriptor, item 0: as item 1 above
 *   timer create  a port, c user value; the reply's a is its number, below WIRE_TIMERS
 *   timer set  a timer, c nanoseconds until it tells, 0 never, item 0: from one time to the next, 0 once;  timer delete  a timer
 *   get, get many  a port, b the most events, c the least; data of the reply: as many struct wire_event as there are
 * Where a is a descriptor, d is the number of the pipe that stands for it: another thread may have closed it meanwhile, and the kernel's
 * number may be another one's. Where it does not fit, a is no descriptor; 0 fits always.
 * An item is a descriptor of the kernel with WIRE_RELEASE where it is released, and the pipe's number from the bit WIRE_PIPE on; or WIRE_FILE
 * for an ordinary file, with WIRE_RELEASE where the program releases it. Files come by the control socket: the n-th of these items with the
 * n-th file of the message.
 *
 * A call or return of which no item has WIRE_RELEASE is answered once, at its end. Where one has, or a return has WIRE_TELLS_TAKEN, and
 * it is not refused, the first answer is the kernel's wait with WIRE_TAKEN: the program closes what it released, so that
 * nobody waits for its copies, and asks WIRE_WAIT, whose answer is that of the end.
 */
#define WIRE_RELEASE (1ull << 32)
#define WIRE_FILE (1ull << 33)
#define WIRE_PIPE 34

struct wire_request {
	uint32_t op, flags;
	uint32_t number; /* counts the requests of the slot; a reply has that of its request */
	uint32_t a, b;
	uint32_t data_size, items, files;
	uint64_t c, d;
	uint64_t item[WIRE_ITEMS];
	uint8_t data[WIRE_DATA];
};

/* a descriptor that came with a call, or with its results */
struct wire_passed {
	uint32_t fd;         /* the kernel's; WIRE_NO_FD for a file, which comes by the control socket, in order */
	uint32_t attributes; /* of a door, as door_create(3C) has them, with DOOR_LOCAL where it is the receiver's; else 0 */
	uint64_t id;         /* of a door: its number, from 1; of a port and a file 0 */
};

/* a port's event, by the kernel's numbers; of a descriptor by the program's, and the bits by which it was ready */
struct wire_event {
	uint32_t source, events;
	uint64_t object, user;
};

/* flags of a reply */
enum {
	WIRE_TAKEN = 1,    /* the message went out: descriptors that are released are gone */
	WIRE_POOL = 2,     /* the last waiting thread of this private door was taken */
};

struct wire_reply {
	uint32_t number;
	uint32_t kind;  /* of the kernel's answer (kernel_c.h); failures have `error` besides */
	uint32_t error; /* of this system, 0 for none */
	uint32_t flags;
	uint32_t spawn; /* so many server threads of the common pool are to be made by whoever reads this */
	uint32_t data_size, passed, files;
	/*
	 * by kind: new descriptor a; param c; info a the target's pid (0 none), b attributes, c procedure, d cookie, e number;
	 * client a pid, b euid, c ruid, d egid, e rgid; child a token; available a how many; cancel a 0 or 1; entered and notice b number of the door in this process
	 */
	uint32_t a, b;
	uint64_t c, d, e;
	struct wire_passed item[WIRE_PASSED];
	uint8_t data[WIRE_REPLY];
};

struct wire_slot {
	_Alignas(4096) _Atomic uint32_t turn;
	_Atomic uint32_t interrupted; /* the number of the request whose wait is to end, by a signal */
	_Atomic uint32_t looked;      /* that of the request in whose wait the thread has looked whether an alarm is set; doord puts 0 there */
	_Atomic uint32_t left;        /* that of the request by which an invocation came, whose client has left: the server is told so */
	_Alignas(64) struct wire_request request;
	_Alignas(64) struct wire_reply reply;
};

struct wire_area {
	_Alignas(4096) _Atomic uint64_t asked[WIRE_SLOT_WORDS];
	_Atomic uint32_t has_alarm; /* an alarm of the program was set when it set one last, or when a thread of it that waits looked */
	_Atomic uint32_t leavers; /* counts the changes of `left`: a thread of the program may sleep on it */
	struct wire_slot slot[WIRE_SLOTS];
};

/* the table of attached paths, which every program may read: an entry is in force while `used` is 1 */
struct wire_path {
	_Atomic uint32_t used;
	_Atomic uint32_t served; /* the door that is attached is valid */
	_Atomic uint64_t device, inode;
};

struct wire_table {
	_Atomic uint32_t count; /* entries that have ever been in force: those after it are not looked at */
	_Atomic uint32_t attached; /* entries in force */
	struct wire_path path[WIRE_PATHS];
};

/* messages of the control socket */
enum {
	WIRE_HELLO = 1, /* program: it comes. Answered by WIRE_WELCOME, with the area and the bell */
	WIRE_WELCOME,   /* doord: error 0, or why not; a the most bytes of a message, 0 for those of the kernel */
	WIRE_STAND_IN,  /* program: with the reading end of a pipe, whose writing end stands for descriptor a; b: in a forked
	                   child the number of the parent's pipe that it stands in for */
	WIRE_FILES,     /* both: with the files of slot a, number b */
	WIRE_FORKED,    /* program: token a has pid b */
	WIRE_RENEWED,   /* program: a forked child has sent a pipe for each descriptor that it has */
};

struct wire_message {
	uint32_t kind, a, b, error;
	uint32_t version, token;
	uint32_t ruid, rgid;
	char name[WIRE_NAME];
};

#endif
