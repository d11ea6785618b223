#include "straight.h"
#include "timing.h"
// By straight.awk.
#include "straight_lines.h"

void straight_encode(size_t p, const uint64_t *values, uint64_t *cells) {
    switch (p) {
    case 5:
        set_data_5(values, cells);
        set_parities_5(cells);
        break;
    case 11:
        set_data_11(values, cells);
        set_parities_11(cells);
        break;
    case 31:
        set_data_31(values, cells);
        set_parities_31(cells);
        break;
    default:
        stop("there are no straight lines for this p");
    }
}
