/* doord_limits.c: what is said where a program meets a limit that is the kernel's or doord's, and not the manual's: once of a program. */
#include "doord.h"

#include <string.h>

enum { NAMES_KEPT = 32 };

/* Somebody met this limit. */
void tell_limit(int number, enum limit limit)
{
	struct place *place = &doord.place[number];
	const char *more = doord.options.limit < DOORD_ROWS ? "; -l LIMIT gives more" : "";

	if (place->limits_told & 1u << limit)
		return;
	place->limits_told |= 1u << limit;
	switch (limit) {
	case LIMIT_ROWS:
		complain("%s: EMFILE: a process has at most %u descriptors of doors%s", place->name, doord.options.limit, more);
		break;
	case LIMIT_QUEUE:
		complain("%s: EAGAIN: at most %d calls wait in a pool; without --eagain further ones are held back", place->name, DOORD_QUEUE);
		break;
	case LIMIT_PROCEDURES:
		complain("%s: at most %d procedures have names in the history: further ones go by the name of the last", place->name, DOORD_PROCEDURES);
		break;
	case LIMIT_PATHS:
		complain("%s: EMFILE: doors are attached to at most 4,096 files in the life of a kernel", place->name);
		break;
	case LIMIT_SOURCES:
		complain("%s: EAGAIN: a descriptor that is associated with a port takes two of the %u that a process has for doors", place->name, doord.options.limit);
		break;
	}
}

/* Whether nothing was said yet of a program of this name, for which there is no process. Of more names nothing is said. */
bool is_news(const char *program)
{
	static char name[NAMES_KEPT][WIRE_NAME];
	static unsigned names;

	for (unsigned i = 0; i < names; i++)
		if (strcmp(name[i], program) == 0)
			return false;
	if (names == NAMES_KEPT)
		return false;
	strcpy(name[names++], program);
	return true;
}
