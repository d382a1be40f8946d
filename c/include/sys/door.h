/* sys/door.h: what door.h has. */
#ifndef _SYS_DOOR_H
#define _SYS_DOOR_H

#include <door.h>

#endif
