/*
 * doord_timers.c: timers that tell ports, timer_create(3C) with SIGEV_PORT. A unit of the kernel's clock is a
 * millisecond. init moves the clock on when a timer is due, or is set while others are armed; where none is armed the
 * clock stands still, for nobody can tell.
 */
#include "doord.h"

#include <errno.h>
#include <time.h>

enum { UNIT = 1000000, STEP = 10000, MOST = 1000000000 };

static struct {
	uint64_t clock; /* the kernel's */
	uint64_t base;  /* when that was 0, in nanoseconds */
	unsigned armed;
} own;

static uint64_t nanoseconds(void)
{
	struct timespec time;

	clock_gettime(CLOCK_MONOTONIC, &time);
	return (uint64_t)time.tv_sec * 1000000000 + (uint64_t)time.tv_nsec;
}

static void arm(struct timer *timer, uint64_t due, uint64_t interval)
{
	if (timer->is_armed != (due != 0)) {
		own.armed += due != 0 ? 1u : -1u;
		timer->is_armed = due != 0;
	}
	timer->due = due;
	timer->interval = interval;
}

/* Those that have told once are not armed any more, and others tell again. */
static void pass(struct timer *timer)
{
	if (!timer->is_armed || timer->due > own.clock)
		return;
	uint64_t late = timer->interval ? (own.clock - timer->due) / timer->interval + 1 : 0;
	arm(timer, timer->interval ? timer->due + late * timer->interval : 0, timer->interval);
}

/* The kernel's clock is moved on to now. */
static void advance(uint64_t time)
{
	uint64_t now = (time - own.base) / UNIT;

	while (own.clock < now && !doord.is_full) {
		uint64_t step = now - own.clock < STEP ? now - own.clock : STEP;
		struct asked asked = { .op = KERNEL_OP_ADVANCE, .c = step };
		if (!enter_kernel(1, &asked)) {
			/* the clock has no more room: what is armed never tells */
			own.base = time - own.clock * UNIT;
			return;
		}
		own.clock += step;
	}
	for (int i = 2; i <= doord.places; i++)
		for (unsigned t = 0; t < WIRE_TIMERS; t++)
			pass(&doord.place[i].timer[t]);
}

static uint64_t in_units(uint64_t time)
{
	return time < (uint64_t)MOST * UNIT ? (time + UNIT - 1) / UNIT : MOST;
}

static void ask_set(int number, const struct wire_request *request, struct timer *timer)
{
	uint64_t now = nanoseconds(), first = request->c, interval = request->items > 0 ? in_units(request->item[0]) : 0;

	if (own.armed == 0)
		own.base = now - own.clock * UNIT;
	else
		advance(now);
	/* of the unit that has begun some has gone by */
	uint64_t begun = now - own.base - own.clock * UNIT;
	uint64_t delay = first == 0 ? 0 : in_units(first < UINT64_MAX - begun ? begun + first : first);
	struct asked asked = { .op = KERNEL_OP_TIMER_SET, .a = request->a, .c = delay, .d = interval };
	enter_kernel(number, &asked);
	if (answer.kind != KERNEL_ANSWER_FAILURE && timer)
		arm(timer, delay == 0 ? 0 : own.clock + delay, interval);
}

void ask_timer(struct slot *slot, int number)
{
	struct wire_request *request = &slot->request;
	struct timer *all = doord.place[doord.member[number].place].timer;
	struct timer *timer = request->a < WIRE_TIMERS ? &all[request->a] : NULL;
	struct asked asked = { .op = request->op, .c = request->c };

	if (request->op == KERNEL_OP_TIMER_SET) {
		ask_set(number, request, timer);
	} else {
		if (request->op == KERNEL_OP_TIMER_CREATE)
			see_descriptor(slot);
		asked.a = request->a;
		enter_kernel(number, &asked);
	}
	if (answer.kind == KERNEL_ANSWER_FAILURE) {
		reply_error(slot, host_error(answer.number[0]));
		return;
	}
	if (request->op == KERNEL_OP_TIMER_CREATE)
		timer = answer.number[0] < WIRE_TIMERS ? &all[answer.number[0]] : NULL;
	if (request->op != KERNEL_OP_TIMER_SET && timer) {
		arm(timer, 0, 0);
		timer->is_there = request->op == KERNEL_OP_TIMER_CREATE;
	}
	begin_reply(slot, answer.kind)->a = (uint32_t)answer.number[0];
}

bool is_any_armed(void)
{
	return own.armed > 0;
}

/* The first moment at which one tells; 0 where none is armed. */
static uint64_t first_due(void)
{
	uint64_t first = 0;

	for (int i = 2; i <= doord.places && own.armed > 0; i++)
		for (unsigned t = 0; t < WIRE_TIMERS; t++) {
			const struct timer *timer = &doord.place[i].timer[t];
			if (timer->is_armed && (first == 0 || timer->due < first))
				first = timer->due;
		}
	return first;
}

/* How long the loop may sleep, in milliseconds; -1 for good. */
int time_for_timers(void)
{
	uint64_t due = first_due(), now = nanoseconds();

	if (due == 0)
		return -1;
	uint64_t at = own.base + due * UNIT, left = at > now ? (at - now + UNIT - 1) / UNIT : 0;
	return left < 1000000 ? (int)left : 1000000;
}

void run_timers(void)
{
	uint64_t due = first_due(), now = nanoseconds();

	if (due == 0 || now < own.base + due * UNIT)
		return;
	advance(now);
	settle();
}

/* The program has ended: its timers do, too, unless the kernel has ended them with its process. */
void end_timers(int place, bool is_killed)
{
	for (unsigned t = 0; t < WIRE_TIMERS; t++) {
		struct timer *timer = &doord.place[place].timer[t];
		struct asked end = { .op = KERNEL_OP_TIMER_DELETE, .a = t };
		if (!timer->is_there)
			continue;
		if (!is_killed)
			enter_kernel(doord.place[place].keeper, &end);
		arm(timer, 0, 0);
		timer->is_there = false;
	}
}
