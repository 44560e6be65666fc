/* The kit's compiler comes without headers: here is what elsterkabel.h and the hypervisor use of this one. */
#ifndef STDBOOL_H
#define STDBOOL_H

#define bool _Bool
#define true 1
#define false 0

#endif
