/* The exported engine as a table. */
#include "engine.h"

const struct engine first_engine = {
    .start = saratoga_engine_start,
    .meet = saratoga_engine_meet,
    .opened = saratoga_engine_opened,
    .look = saratoga_engine_look,
    .stored = saratoga_engine_stored,
    .next = saratoga_engine_next,
    .tell = saratoga_engine_tell,
    .named = saratoga_engine_named,
    .reported = saratoga_engine_reported,
    .close = saratoga_engine_close,
    .sync = saratoga_engine_sync,
    .synced = saratoga_engine_synced,
};
