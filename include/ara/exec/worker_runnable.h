// The standard's header of one name of ara::exec; the adapter has them all in one.
#ifndef DET_ARA_EXEC_WORKER_RUNNABLE_H
#define DET_ARA_EXEC_WORKER_RUNNABLE_H
#include "ara/exec/deterministic_client.h"
#endif
