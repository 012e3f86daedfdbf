/* What each engine does for the lab. Racks and boards are named by their place in the work's lists. */
#ifndef ENGINE_H
#define ENGINE_H

#include "work.h"

typedef struct {
    const char *name;
    int slow;            /* each call checks the whole file: fewer comparisons */
    void (*enter)(void); /* before the others are used; may be null */
    void (*load)(const Work *work, unsigned pages);
    void (*round)(size_t rack, Sink *sink); /* boards by slot, and after each its captures as they came */
    void (*find)(size_t rack, uint16_t slot, Sink *sink);
    void (*key)(const uint8_t *name, Sink *sink);
    void (*store_capture)(size_t board, const uint8_t *data);
    void (*delete_capture)(void); /* the one stored last */
    void (*store_board)(size_t rack, uint16_t slot, const uint8_t *data); /* with two captures of these data */
    void (*delete_board)(void);   /* the one stored last, and its captures */
    void (*relink)(size_t board, size_t rack);
    int (*check)(void);           /* 1 where all is well; null where there is no such thing */
} Engine;

extern const Engine CHECKED, UNCHECKED, SQLITE, LMDB;

/* Ends the program. */
void fail(const char *engine, const char *what, int code);

#endif
