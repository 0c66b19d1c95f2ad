/* Backfill without a reservation: the first job starts for which a block is free. */
#define NO_RESERVATION
#include "core.h"
