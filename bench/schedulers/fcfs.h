/* First come, first served: no job passes the first one of the lowest class. */
#define HEAD_ONLY
#include "core.h"
