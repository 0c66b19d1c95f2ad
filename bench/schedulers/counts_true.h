/* EASY on counts with as many processors as a job asks for. */
#define TRUE_SIZES
#include "counts.h"
