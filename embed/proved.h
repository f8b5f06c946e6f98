/* The proved functions, each as atomfs.h declares the one of its name: a request by its fields. embed/header.py writes this. */
#ifndef ATOMFS_PROVED_H
#define ATOMFS_PROVED_H

#include "atomfs.h"

#define PROVED(name) proved_atomfs_##name

uint8_t PROVED(open)(atomfs *, size_t);
uint8_t PROVED(open_with)(atomfs *, size_t, uint8_t);
uint8_t PROVED(open_from)(atomfs *, size_t, uint8_t, const char *, size_t, size_t *);
uint8_t PROVED(open_at)(atomfs *, size_t, atomfs *, uint64_t *);
uint8_t PROVED(close)(atomfs *);
uint8_t PROVED(seat)(atomfs *, uint64_t *);
uint8_t PROVED(mkdir)(atomfs *, uint64_t, const char *, size_t, uint64_t *);
uint8_t PROVED(mknod)(atomfs *, uint64_t, const char *, size_t, uint64_t *);
uint8_t PROVED(unlink)(atomfs *, uint64_t, const char *, size_t, uint64_t *);
uint8_t PROVED(rmdir)(atomfs *, uint64_t, const char *, size_t, uint64_t *);
uint8_t PROVED(rename)(atomfs *, uint64_t, const char *, size_t, const char *, size_t, uint64_t *);
uint8_t PROVED(exchange)(atomfs *, uint64_t, const char *, size_t, const char *, size_t, uint64_t *);
uint8_t PROVED(stat)(atomfs *, uint64_t, const char *, size_t, struct atomfs_stat *, uint64_t *);
uint8_t PROVED(readdir)(atomfs *, uint64_t, const char *, size_t, char *, size_t, size_t *, uint64_t *);
uint8_t PROVED(list)(atomfs *, uint64_t, const char *, size_t, const char *, size_t, uint32_t, char *, size_t, size_t *,
                     uint64_t *);
uint8_t PROVED(read)(atomfs *, uint64_t, const char *, size_t, uint64_t, void *, size_t, size_t *, uint64_t *);
uint8_t PROVED(write)(atomfs *, uint64_t, const char *, size_t, uint64_t, const void *, size_t, uint64_t *, uint64_t *);
uint8_t PROVED(truncate)(atomfs *, uint64_t, const char *, size_t, uint64_t, uint64_t *);
uint8_t PROVED(begin_call)(atomfs *, uint64_t, uint8_t, const char *, size_t, const char *, size_t, uint64_t, uint64_t,
                           const void *, size_t, uint64_t *);
uint8_t PROVED(step)(atomfs *, uint64_t, uint8_t *, uint64_t *);
uint8_t PROVED(step_any)(atomfs *, uint64_t *, uint8_t *, uint64_t *);
uint8_t PROVED(reply_done)(atomfs *, uint64_t);
uint8_t PROVED(reply_stat)(atomfs *, uint64_t, struct atomfs_stat *);
uint8_t PROVED(reply_names)(atomfs *, uint64_t, const char *, size_t, char *, size_t, size_t *);
uint8_t PROVED(reply_bytes)(atomfs *, uint64_t, void *, size_t, size_t *);
uint8_t PROVED(reply_wrote)(atomfs *, uint64_t, uint64_t *);
uint8_t PROVED(journal)(atomfs *, size_t, char *, size_t, size_t *, size_t *);
uint8_t PROVED(opening)(atomfs *, char *, size_t, size_t *);
uint8_t PROVED(checkpoint)(atomfs *, char *, size_t, size_t *, uint64_t *);
uint8_t PROVED(forget)(atomfs *, uint64_t *);
uint8_t PROVED(keep)(atomfs *, uint32_t);
uint8_t PROVED(verdict)(atomfs *, uint64_t *, uint8_t *);
uint8_t PROVED(tree)(atomfs *, char *, size_t, size_t *);
uint8_t PROVED(begin)(atomfs *, uint64_t, const char *, size_t, uint64_t *);
uint8_t PROVED(call)(atomfs *, uint64_t, const char *, size_t, char *, size_t, size_t *, uint64_t *);
uint8_t PROVED(reply)(atomfs *, uint64_t, char *, size_t, size_t *);
uint8_t PROVED(run)(const char *, size_t, char *, size_t, size_t *);
uint8_t PROVED(check)(const char *, size_t, char *, size_t, size_t *);
uint8_t PROVED(trace)(const char *, size_t, uint8_t, uint64_t, uint8_t, char *, size_t, size_t *);
uint8_t PROVED(draw)(const char *, size_t, uint8_t, uint64_t, uint64_t, char *, size_t, size_t *);
uint8_t PROVED(page)(const char *, size_t, uint8_t, uint64_t, char *, size_t, size_t *);
uint8_t PROVED(schedule)(const char *, size_t, uint8_t, uint64_t, char *, size_t, size_t *);
uint8_t PROVED(seeds)(const char *, size_t, uint64_t, uint64_t, char *, size_t, size_t *);
uint8_t PROVED(linearize)(const char *, size_t, uint64_t, uint8_t, char *, size_t, size_t *, uint8_t *);
uint8_t PROVED(explain)(const char *, size_t, char *, size_t, size_t *);
uint8_t PROVED(check_path)(const char *, size_t, uint8_t);

#endif
