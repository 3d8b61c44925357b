/* The header in every language that it is for: C from C99 on, and C++ from C++98 on. Compiled with all warnings, and not run. With IGNORED an
 * answer is ignored, and the compiler must say so. */
#include "tablepath.h"

#ifdef __cplusplus
extern "C"
#endif
uint64_t every_function(struct tp_space *space, uint64_t number);

uint64_t every_function(struct tp_space *space, uint64_t number) {
    uint64_t sum = tp_create(space) + tp_open(space);
    sum += tp_map(space, number, number, 4096, TP_WRITABLE | TP_USER | TP_NO_EXECUTE).tables;
    sum += tp_protect(space, number, TP_USER).ticket;
    sum += tp_unmap(space, number).ticket;
    sum += tp_told(space, number).released;
    sum += tp_state(space).free;
    sum += tp_look_up(space, number).kind == TP_PAGE || tp_look_up(space, number).kind == TP_NO_ADDRESS;
    sum += tp_entry(space, number, 0, 0).marks & TP_DIRTY;
#ifdef IGNORED
    tp_map(space, number, number, 4096, 0);
#endif
    return sum + (tp_reason_text(sum) == tp_reason_text(number));
}
