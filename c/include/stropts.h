/* stropts.h: fattach(3C) and fdetach(3C). Nothing else of STREAMS is here. */
#ifndef _STROPTS_H
#define _STROPTS_H

#ifdef __cplusplus
extern "C" {
#endif

int fattach(int, const char *);
int fdetach(const char *);

#ifdef __cplusplus
}
#endif

#endif
