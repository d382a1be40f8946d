/* doord_objects.c: what the kernel's descriptors lead to. */
#include "doord.h"

#include <stdlib.h>
#include <unistd.h>

struct object *new_object(void)
{
	struct object *object = calloc(1, sizeof *object);

	if (!object)
		fail("there is no memory");
	object->file = -1;
	return object;
}

void hold(struct object *object)
{
	object->holders++;
}

/* With the last holder of a file that nobody took doord's copy goes, so that whoever reads to its end finds it. */
void drop(struct object *object)
{
	if (!object || --object->holders > 0)
		return;
	if (object->file >= 0)
		close_file(object->file);
	free(object);
}

struct object *row_of(int place, uint64_t fd)
{
	return fd < DOORD_ROWS ? doord.place[place].row[fd] : NULL;
}

void set_row(int number, uint64_t fd, struct object *object)
{
	struct place *place = &doord.place[number];

	if (fd >= DOORD_ROWS)
		fail("descriptor %llu has no row", (unsigned long long)fd);
	if (place->row[fd])
		clear_row(number, fd);
	hold(object);
	place->row[fd] = object;
	place->rows++;
}

void clear_row(int number, uint64_t fd)
{
	struct place *place = &doord.place[number];

	if (fd >= DOORD_ROWS || !place->row[fd])
		return;
	struct object *object = place->row[fd];
	place->row[fd] = NULL;
	place->rows--;
	if (place->client)
		close_stand_in(place->client, (unsigned)fd);
	drop(object);
}

void drop_passage(struct passage *passage)
{
	for (unsigned i = 0; i < passage->count; i++)
		drop(passage->object[i]);
	passage->count = 0;
	drop(passage->beside);
	passage->beside = NULL;
}
