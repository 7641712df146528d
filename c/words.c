/* What the library tells of itself, beside the proved archive: constant texts, and nothing else. */
#include "sigdorf.h"

const char *sigdorf_version(void) { return SIGDORF_VERSION; }

const char *sigdorf_status_text(int32_t status) {
    switch (status) {
    case SIGDORF_OPTIMAL: return "optimal, or a claim that holds";
    case SIGDORF_SIZES: return "a length is not the number of persons or of objects, or the table does not lie within its length";
    case SIGDORF_INFEASIBLE: return "there is no assignment, or a claim does not pass";
    case SIGDORF_BRACKET: return "a limit ended the search: an assignment, and a bound";
    case SIGDORF_REFUSED: return "the arcs are no problem";
    case SIGDORF_MEMORY: return "memory was refused";
    case SIGDORF_START: return "no run can start from the prices";
    case SIGDORF_SOME: return "the status of some table is another than optimal";
    case SIGDORF_UNREACHED: return "the watch had ended the call before this table";
    default: return "no status of this library";
    }
}
