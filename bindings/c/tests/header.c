/* The header by itself: compiled as C and as C++, of every year that it promises. Nothing is run. */
#include "sortlib.h"

#if SORTLIB_VERSION_MAJOR == 0 && SORTLIB_VERSION_MINOR < 2
#error "the constants came with 0.2.0"
#endif

/* Constants are sizes of arrays. */
extern size_t work[SORTLIB_WORK_FRAMES * (SORTLIB_MAX_TERMS + SORTLIB_MAX_RECORDS)];
extern const char version[sizeof SORTLIB_VERSION];

/* A struct is its cells, one after another, and nothing between or behind them. */
#define HAS_CELLS(name, cells) \
    typedef char name##_has_##cells##_cells[sizeof(struct name) == cells * sizeof(size_t) ? 1 : -1]
HAS_CELLS(sortlib_counts, 6);
HAS_CELLS(sortlib_outcome, 4);
HAS_CELLS(sortlib_told, 4);
HAS_CELLS(sortlib_lent, 6);
HAS_CELLS(sortlib_added, 9);
HAS_CELLS(sortlib_body_counts, 3);
