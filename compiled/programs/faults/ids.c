/* Each transaction has an id of its own, an inner one too, and outside of transactions there is one more. (Libitm's first
 * transaction has the id 0.) */
#include "fault.h"

extern uint64_t _ITM_getTransactionId(void) PURE;
static long shared;

int main(void) {
    uint64_t first = 0, second = 0, inner = 0, after = 0;
    __transaction_atomic {
        first = _ITM_getTransactionId();
        shared++;
    }
    __transaction_atomic {
        second = _ITM_getTransactionId();
        shared += 10;
        __transaction_atomic {
            shared++;
            inner = _ITM_getTransactionId();
            if (shared == 7) __transaction_cancel;
        }
        after = _ITM_getTransactionId();
        shared += 10;
    }
    CHECK(_ITM_getTransactionId() == 1, "outside: %lu", _ITM_getTransactionId());
    CHECK(first != 1 && second != 1, "inside: %lu and %lu", first, second);
    CHECK(first != second, "two transactions have the id %lu", first);
    CHECK(inner != second && after == second, "%lu, within it %lu, then %lu", second, inner, after);
    return done();
}
