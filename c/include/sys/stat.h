/* sys/stat.h: the system's, and the types of a door and of an event port: S_IFDOOR, S_ISDOOR, S_IFPORT, S_ISPORT. */
#pragma GCC system_header
#include_next <sys/stat.h>

#ifndef S_IFDOOR
#define S_IFDOOR 0xD000
#endif
#ifndef S_ISDOOR
#define S_ISDOOR(mode) (((mode) & 0xF000) == S_IFDOOR)
#endif
#ifndef S_IFPORT
#define S_IFPORT 0xE000
#endif
#ifndef S_ISPORT
#define S_ISPORT(mode) (((mode) & 0xF000) == S_IFPORT)
#endif
