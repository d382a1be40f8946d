/*
 * kernel_c.h - a kernel of doors, ports, pipes and timers with the history of
 * what its threads did, as a library.
 *
 * The library runs no thread. It is told what a thread asks for
 * (kernel_c_enter), or that the wait of a thread is to end (kernel_c_go_on),
 * and gives what the kernel does then in two pieces: a reply for the thread,
 * and a line of text. The head that kernel_c_new gives, these lines in their
 * order, and the line that kernel_c_end gives are the text of a legal history.
 *
 * Numbers. Processes and threads are numbered from 1, in the order in which
 * kernel_c_new was told of them; of each process come the threads, then the
 * spares. Procedures and paths are numbered from 0, in the order of the lines
 * that declare them (kernel_c_declare). Descriptors are numbered from 0 in each
 * process, and timers likewise.
 *
 * What the caller has to uphold, since nothing checks it:
 * - No pointer is NULL, also where the length after it is 0. It points to as
 *   many items as that length says.
 * - What a call may write, no other argument of the call points to.
 * - One thread at a time makes calls: the library takes no lock. No signal
 *   handler makes one, nor the child of a fork of a process with threads.
 * The library keeps no pointer that it was given.
 */
#ifndef KERNEL_C_H
#define KERNEL_C_H

#include <stddef.h>
#include <stdint.h>

#ifdef __cplusplus
extern "C" {
#endif

/*
 * A kernel with its history. It begins empty, as struct kernel k = { NULL };
 * kernel_c_new fills it, kernel_c_close empties it again, and every other
 * function wants one that is filled. What is in it is the library's: do not
 * read, write or copy it.
 */
struct kernel {
    void *at;
};

/*
 * Statuses. Where one is not KERNEL_DONE, nothing was done: the kernel and
 * its history are as before, and what the buffers have is of no use.
 * KERNEL_NO_MEMORY may come from each function that answers a status.
 */
enum kernel_status {
    KERNEL_DONE = 0,
    KERNEL_FULL = 1,        /* the kernel has had its last event, number 1,000,000 */
    KERNEL_NOT_RUNNING = 2, /* there is no such thread, or it does not run */
    KERNEL_NOT_READY = 3,   /* there is no such thread, it runs, or its wait can not end */
    KERNEL_NOT_FIT = 4,     /* there is no such request; see kernel_c_enter */
    KERNEL_NO_MEMORY = 5,
    KERNEL_NO_ROOM = 6,     /* a buffer is too small */
    KERNEL_NO_OPENING = 7,  /* no history begins with such processes */

    /* Only of kernel_c_declare: why a line is bad, the first that holds. */
    KERNEL_LINE_SIZE = 17,    /* it has more than 65,536 bytes */
    KERNEL_LINE_BYTE = 18,    /* it has a byte outside 0x20 to 0x7e */
    KERNEL_LINE_WORD = 20,    /* it declares neither a name nor a procedure nor a path */
    KERNEL_LINE_FORM = 21,    /* its words are wrong in number or spelling */
    KERNEL_LINE_RANGE = 22,   /* a length is outside its range */
    KERNEL_LINE_TWICE = 23,   /* what it declares is there already, or it names a child too late */
    KERNEL_LINE_MANY = 24,    /* a process would have 65 procedures, or there would be 4,097 paths */
    KERNEL_LINE_UNKNOWN = 25  /* it has a name that nothing before it declares */
};

/* Room */

/* How many words the buffer for a reply has at least: 331. */
size_t kernel_c_reply_room(void);

/* How many bytes the buffer for an answer's bytes has at least: 4,096. */
size_t kernel_c_bytes_room(void);

/* How many bytes a buffer for text has at least: 65,536. */
size_t kernel_c_text_room(void);

/* Beginning and end */

/* A process as kernel_c_new is told of it. */
struct kernel_process {
    uint32_t limit;   /* how many descriptors it may have, at most 256; a child has its parent's limit instead */
    uint32_t parent;  /* 0; or, of a child, the number of a process that stands before it */
    uint32_t threads; /* how many threads it begins with */
    uint32_t spares;  /* how many server threads the kernel may start when its doors want them */
};

/*
 * A kernel of these processes: at most 64, with at most 64 threads and spares
 * in all. A process without a parent has begun; a child begins when a thread
 * of its parent forks it.
 *
 * KERNEL_DONE: `kernel`, which has to be empty, is filled. The first *written
 * bytes of `text` are the head of its history. There the first process and
 * the first thread are called init, process N pN, and thread N tN.
 * KERNEL_NO_ROOM: `text` has fewer bytes than kernel_c_text_room(), or than the
 * head. KERNEL_NO_OPENING: see above. With every status but KERNEL_DONE
 * `kernel` stays empty.
 */
uint32_t kernel_c_new(struct kernel *kernel, const struct kernel_process *processes, size_t processes_count,
                      uint8_t *text, size_t text_size, size_t *written);

/*
 * The line that ends the history as it stands; the kernel stays as it is, and
 * may go on.
 *
 * KERNEL_DONE: the first *written bytes of `text` are the line with its line
 * feed: "end open" where some thread can go on; else "end stalled" where some
 * thread waits in a call, at a port or for a path, with the names of these;
 * else "end complete".
 * KERNEL_NO_ROOM: `text` has fewer bytes than kernel_c_text_room().
 */
uint32_t kernel_c_end(struct kernel *kernel, uint8_t *text, size_t text_size, size_t *written);

/* The kernel is freed, and `kernel` is empty. */
void kernel_c_close(struct kernel *kernel);

/* Names */

/*
 * A line is taken that declares what later lines name, one of
 *
 *   name CHILD NAME NAME ..   a child's name, and one for each of its threads
 *                             and spares; at most once for a child, and
 *                             before anything mentions it
 *   proc NAME of PROCESS      the next procedure, for doors of this process
 *   path NAME "TEXT"          the next path, and what programs call it
 *
 * without a line feed. NAME has 1 to 16 letters a to z, digits and '_', of
 * which the first is a letter. TEXT stands for 1 to 4,096 bytes: a quote and a
 * backslash are written \" and \\, each byte outside 0x20 to 0x7e \xhh, the
 * others as they are.
 *
 * KERNEL_DONE: it is taken. The caller adds it, with a line feed, to the text
 * of the history at this place.
 * KERNEL_LINE_SIZE .. KERNEL_LINE_UNKNOWN: it is bad.
 */
uint32_t kernel_c_declare(struct kernel *kernel, const uint8_t *line, size_t line_size);

/* Requests */

/*
 * What a thread asks for. enum kernel_op says which operands an operation has;
 * the others are not looked at.
 */
struct kernel_asked {
    uint32_t op;
    uint32_t thread;
    uint32_t a;
    uint32_t b;
    uint64_t c;
    uint64_t d;
};

enum kernel_op {
    /* doors */
    KERNEL_OP_CREATE = 1,         /* a: procedure, b: enum kernel_attribute, c: cookie */
    KERNEL_OP_CALL = 2,           /* a: door, c: size of the buffer for results, data, items: what to pass */
    KERNEL_OP_RETURN = 3,         /* data, items: what to pass */
    KERNEL_OP_REVOKE = 4,         /* a: door */
    KERNEL_OP_BIND = 5,           /* a: door */
    KERNEL_OP_UNBIND = 6,
    KERNEL_OP_INFO = 7,           /* a: door */
    KERNEL_OP_INFO_QUERY = 8,     /* of the door that the thread is bound to */
    KERNEL_OP_GET_PARAMETER = 9,  /* a: door, b: enum kernel_parameter */
    KERNEL_OP_SET_PARAMETER = 10, /* a: door, b: enum kernel_parameter, c: value */
    KERNEL_OP_CREDENTIALS = 11,   /* of the client that the thread serves */
    KERNEL_OP_TEST_CANCEL = 12,

    /* descriptors, paths and pipes */
    KERNEL_OP_CLOSE = 13,     /* a: descriptor */
    KERNEL_OP_DUPLICATE = 14, /* a: descriptor */
    KERNEL_OP_ATTACH = 15,    /* a: door, b: path */
    KERNEL_OP_DETACH = 16,    /* b: path */
    KERNEL_OP_OPEN = 17,      /* b: path */
    KERNEL_OP_AWAIT = 18,     /* b: path, until something is attached to it */
    KERNEL_OP_PIPE = 19,
    KERNEL_OP_WRITE = 20,     /* a: descriptor, data */
    KERNEL_OP_READ = 21,      /* a: descriptor, b: the most bytes, 1 to 4,096 */

    /* ports */
    KERNEL_OP_PORT_CREATE = 22,
    KERNEL_OP_ASSOCIATE = 23,  /* a: port, b: descriptor, c: enum kernel_poll, d: user value */
    KERNEL_OP_DISSOCIATE = 24, /* a: port, b: descriptor */
    KERNEL_OP_GET = 25,        /* a: port, b: 1 to wait, else 0 */
    KERNEL_OP_GET_MANY = 26,   /* a: port, b: the most events, 0 to 64, c: the least, below 2^32, d: 1 to wait, else 0 */
    KERNEL_OP_SEND = 27,       /* a: port, b: events, c: user value */
    KERNEL_OP_SEND_MANY = 28,  /* b: events, c: user value, items: 1 to 16 ports */
    KERNEL_OP_ALERT = 29,      /* a: port, b: events, c: user value, d: enum kernel_alert */

    /* threads, processes, timers and the clock */
    KERNEL_OP_INTERRUPT = 30,    /* a: thread */
    KERNEL_OP_KILL = 31,         /* a: process */
    KERNEL_OP_EXIT = 32,         /* of the thread that asks */
    KERNEL_OP_FORK = 33,         /* a: child of the thread's process */
    KERNEL_OP_TIMER_CREATE = 34, /* a: port, c: user value */
    KERNEL_OP_TIMER_SET = 35,    /* a: timer, c: delay or 0, d: interval or 0; each at most 1,000,000,000 */
    KERNEL_OP_TIMER_DELETE = 36, /* a: timer */
    KERNEL_OP_ADVANCE = 37       /* c: by how much the clock moves, 1 to 10,000 */
};

/* What an item of a call or a return is: a descriptor, and this bit where the sender gives it up. */
#define KERNEL_ITEM_RELEASE (UINT64_C(1) << 32)

/* Attributes of a door. KERNEL_OP_CREATE answers EINVAL for the three that only information has. */
enum kernel_attribute {
    KERNEL_ATTRIBUTE_UNREF = 1,
    KERNEL_ATTRIBUTE_PRIVATE = 2,
    KERNEL_ATTRIBUTE_LOCAL = 4,   /* only information */
    KERNEL_ATTRIBUTE_REVOKED = 8, /* only information */
    KERNEL_ATTRIBUTE_UNREF_MULTI = 16,
    KERNEL_ATTRIBUTE_IS_UNREF = 32, /* only information */
    KERNEL_ATTRIBUTE_REFUSE_DESCRIPTORS = 64,
    KERNEL_ATTRIBUTE_NO_CANCEL = 128
};

enum kernel_parameter {
    KERNEL_PARAMETER_DATA_MAX = 0,
    KERNEL_PARAMETER_DATA_MIN = 1,
    KERNEL_PARAMETER_DESCRIPTORS_MAX = 2
};

enum kernel_poll {
    KERNEL_POLL_IN = 1,
    KERNEL_POLL_OUT = 4,
    KERNEL_POLL_ERROR = 8,
    KERNEL_POLL_HANG_UP = 16
};

enum kernel_alert {
    KERNEL_ALERT_SET = 0,
    KERNEL_ALERT_UPDATE = 1,
    KERNEL_ALERT_OTHER = 2 /* flags that are neither, which the kernel answers by EINVAL */
};

/* Replies */

/*
 * The words of a reply. At KERNEL_REPLY_ITEMS stand as many items as
 * KERNEL_REPLY_ITEMS_COUNT says, and after them the threads that this event
 * made able to go on, as many as KERNEL_REPLY_WOKEN_COUNT says.
 */
enum kernel_reply {
    KERNEL_REPLY_EVENT = 0,  /* the number of the event, from 1 */
    KERNEL_REPLY_ROOT = 1,   /* the thread at the root of the thread's calls before the event */
    KERNEL_REPLY_ANSWER = 2, /* enum kernel_answer */
    KERNEL_REPLY_FIRST = 3,  /* five numbers of the answer; those that it has not are 0 */
    KERNEL_REPLY_SECOND = 4,
    KERNEL_REPLY_THIRD = 5,
    KERNEL_REPLY_FOURTH = 6,
    KERNEL_REPLY_FIFTH = 7,
    KERNEL_REPLY_BYTES_COUNT = 8, /* how many bytes the answer has in `bytes` */
    KERNEL_REPLY_ITEMS_COUNT = 9,
    KERNEL_REPLY_WOKEN_COUNT = 10,
    KERNEL_REPLY_ITEMS = 11
};

/* Answers: the numbers that each has, and whether it has bytes and items. */
enum kernel_answer {
    KERNEL_ANSWER_WAIT = 1,           /* the thread waits */
    KERNEL_ANSWER_WAIT_CALL = 2,      /* call: it waits for this one */
    KERNEL_ANSWER_DONE = 3,
    KERNEL_ANSWER_DESCRIPTOR = 4,     /* descriptor, a new one */
    KERNEL_ANSWER_DESCRIPTORS = 5,    /* descriptor to read, descriptor to write: a pipe */
    KERNEL_ANSWER_COUNT = 6,          /* how many bytes were written; or a new timer */
    KERNEL_ANSWER_AVAILABLE = 7,      /* how many events a port has */
    KERNEL_ANSWER_PARAMETER = 8,      /* value */
    KERNEL_ANSWER_INFO = 9,           /* process or 0 where it has ended, procedure, cookie, attributes, number of the door */
    KERNEL_ANSWER_CLIENT = 10,        /* process */
    KERNEL_ANSWER_CHILD = 11,         /* process, which has begun */
    KERNEL_ANSWER_CANCEL = 12,        /* 1 where a cancellation is pending, else 0 */
    KERNEL_ANSWER_DATA = 13,          /* bytes */
    KERNEL_ANSWER_ENTERED = 14,       /* call, procedure, cookie; bytes; items: descriptors */
    KERNEL_ANSWER_NOTICE = 15,        /* notice, procedure, cookie: a door is unreferenced */
    KERNEL_ANSWER_ENTER_FAILED = 16,  /* call, whose descriptors had no room; the thread waits again */
    KERNEL_ANSWER_RESULTS = 17,       /* 1 where they are larger than the buffer, else 0; bytes; items: descriptors */
    KERNEL_ANSWER_EVENT = 18,         /* items: the four of an event */
    KERNEL_ANSWER_EVENTS = 19,        /* items: four of each event */
    KERNEL_ANSWER_ERRORS = 20,        /* items: of each port enum kernel_error, or 0 */
    KERNEL_ANSWER_FAILURE = 21        /* enum kernel_error */
};

/* The four items of a port's event. */
enum kernel_event {
    KERNEL_EVENT_SOURCE = 0, /* enum kernel_source */
    KERNEL_EVENT_OBJECT = 1, /* descriptor or timer, else 0 */
    KERNEL_EVENT_EVENTS = 2, /* events; of a timer, how often it fired */
    KERNEL_EVENT_USER = 3    /* user value */
};

enum kernel_source {
    KERNEL_SOURCE_DESCRIPTOR = 0,
    KERNEL_SOURCE_USER = 1,
    KERNEL_SOURCE_ALERT = 2,
    KERNEL_SOURCE_TIMER = 3
};

/* Errors, which are not the numbers of errno.h. */
enum kernel_error {
    KERNEL_ERROR_E2BIG = 1,
    KERNEL_ERROR_EAGAIN = 2,
    KERNEL_ERROR_EBADF = 3,
    KERNEL_ERROR_EBADFD = 4,
    KERNEL_ERROR_EBUSY = 5,
    KERNEL_ERROR_EINTR = 6,
    KERNEL_ERROR_EINVAL = 7,
    KERNEL_ERROR_EMFILE = 8,
    KERNEL_ERROR_ENFILE = 9,
    KERNEL_ERROR_ENOBUFS = 10,
    KERNEL_ERROR_ENOENT = 11,
    KERNEL_ERROR_ENOTSUP = 12,
    KERNEL_ERROR_EPERM = 13,
    KERNEL_ERROR_EPIPE = 14,
    KERNEL_ERROR_ETIME = 15
};

/* Turns */

/*
 * A thread that runs enters the kernel with `asked`, at most 8,192 bytes of
 * data and at most 32 items.
 *
 * KERNEL_DONE: the history has one event more. `reply` begins with the words of
 * the reply, `bytes` with the answer's bytes, and the first *written bytes of
 * `text` are the event's line with its line feed.
 * KERNEL_FULL, KERNEL_NOT_RUNNING.
 * KERNEL_NOT_FIT: the operation or a number is none that enum kernel_op has;
 * an item is none; there is too much data or there are too many items; a
 * procedure of the thread's process, or a path, is not declared; attributes are
 * 256 or more; a thread, a process or a child is not there; or an advance when the
 * clock has passed 1,000,000,000. What else is wrong with a request, as a descriptor
 * that is not open, the kernel answers by KERNEL_ANSWER_FAILURE.
 * KERNEL_NO_ROOM: `reply`, `bytes` or `text` is smaller than its room.
 */
uint32_t kernel_c_enter(struct kernel *kernel, const struct kernel_asked *asked, const uint8_t *data, size_t data_size,
                        const uint64_t *items, size_t items_count, uint64_t *reply, size_t reply_count,
                        uint8_t *bytes, size_t bytes_size, uint8_t *text, size_t text_size, size_t *written);

/*
 * The wait of a thread ends; a thread that waits enters nothing before.
 *
 * KERNEL_DONE: as of kernel_c_enter. Then the thread runs, or waits again.
 * KERNEL_FULL, KERNEL_NOT_READY, KERNEL_NO_ROOM.
 */
uint32_t kernel_c_go_on(struct kernel *kernel, uint32_t thread, uint64_t *reply, size_t reply_count, uint8_t *bytes,
                        size_t bytes_size, uint8_t *text, size_t text_size, size_t *written);

/* What is so now */

/* 1 where a thread runs, or waits and its wait can end; else 0, also where there is no such thread. */
uint32_t kernel_c_runnable(struct kernel *kernel, uint32_t thread);

enum kernel_thread {
    KERNEL_THREAD_DORMANT = 1,       /* a spare that was not started, or of a child that has not begun */
    KERNEL_THREAD_RUNNING = 2,
    KERNEL_THREAD_IDLE = 3,          /* it waits for calls */
    KERNEL_THREAD_GIVEN = 4,         /* it waited for calls, and was given one, or a notice */
    KERNEL_THREAD_CALLING = 5,       /* it waits for a call's results */
    KERNEL_THREAD_GETTING = 6,       /* it waits at a port */
    KERNEL_THREAD_AWAITING = 7,      /* it waits for a path */
    KERNEL_THREAD_WORKING = 8,       /* no thread of this library is here */
    KERNEL_THREAD_FAILED_RETURN = 9, /* it waited for calls, and its door is not valid any more */
    KERNEL_THREAD_DONE = 10          /* it has ended; also where there is no such thread */
};

/* What a thread is at: enum kernel_thread. */
uint32_t kernel_c_state(struct kernel *kernel, uint32_t thread);

/* How many events there were. */
uint64_t kernel_c_events(struct kernel *kernel);

#ifdef __cplusplus
}
#endif

#endif
