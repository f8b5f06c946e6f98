/* Which calls sleep for which node, in the memory of shared.c, and the proved functions that note it and say whom to wake. Its
 * structures are those of crates/atomfs_c/src/sleepers.rt. It is no part of what is installed. */
#ifndef ATOMFS_ASLEEP_H
#define ATOMFS_ASLEEP_H

#include "proved.h"
#include <stdbool.h>

enum { ATOMFS_QUEUES = 64 };

/* What is noted of the calls that sleep in a queue. If all is 0, none sleeps. */
struct atomfs_noted {
    uint64_t node;
    uint64_t most;
    bool for_several;
};

struct atomfs_asleep {
    struct atomfs_noted queues[ATOMFS_QUEUES];
};

/* Whom of a queue to wake. */
enum { ATOMFS_WAKE_NOBODY = 0, ATOMFS_WAKE_ONE = 1, ATOMFS_WAKE_ALL = 2 };

/* What a step did, and what follows: a call that waits is to sleep in the queue, and otherwise those of the queue are to be woken. */
struct atomfs_went {
    uint8_t did;
    uint8_t whom;
    uint64_t about;
    uint64_t queue;
};

/* Does one step of the call on a seat, as atomfs_step does, and notes a call that waits. */
uint8_t PROVED(step_among)(atomfs *fs, uint64_t seat, struct atomfs_asleep *asleep, struct atomfs_went *went);

/* Whom of a queue a node wakes that was let go. */
uint8_t PROVED(wakes)(struct atomfs_asleep *asleep, uint64_t node, uint64_t *queue);

#endif
