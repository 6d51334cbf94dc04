#include "parts.h"

#include "call.h"
#include "check.h"
#include "layout.h"

#include "../../include/felica_secure.h"

// The forecast is the sealed size itself: an output of that size takes the sealing, and with one byte less it gives 16.
static void payload(unsigned scheme, size_t n)
{
    struct call c = call_of(SEAL, scheme, (unsigned)n, sample((unsigned)n, n));
    uint64_t answer = felica_forecast((uint8_t)scheme, n);

    if (n > payload_max(scheme)) {
        check(answer == FELICA_TOO_LONG, "a forecast of a payload that is too long");
        refuses_in(&c, 300, FELICA_TOO_LONG);
        return;
    }
    check(answer == (uint64_t)sealed_size(scheme, n) << 16, "a forecast of another size, or with more than a size");
    gives(&c, 0, felica_answer_length(answer), NULL, NULL);
}

void forecasts(void)
{
    static const size_t sizes[] = {
        0, 1, 232, 233, 243, 244, 255, 256, 65535, 65536, 65552, 0xFFFFFFFFu, (size_t)0x100000000u, (size_t)0x100000010u,
        SIZE_MAX / 2, SIZE_MAX / 2 + 1, SIZE_MAX - 16, SIZE_MAX - 10, SIZE_MAX - 8, SIZE_MAX - 1, SIZE_MAX,
    };
    unsigned mark;
    size_t n, i;

    part("forecasts");
    for (mark = 1; mark <= 2; mark++) {
        for (n = 0; n <= 300; n++) {
            payload(mark, n);
        }
    }
    for (mark = 0; mark < 256; mark++) {
        for (i = 0; i < sizeof sizes / sizeof sizes[0]; i++) {
            uint64_t answer = felica_forecast((uint8_t)mark, sizes[i]);

            if (mark != 1 && mark != 2) {
                check(answer == FELICA_BAD_MARK_OR_LENGTH, "a forecast for an unknown mark");
            } else if (sizes[i] > payload_max(mark)) {
                check(answer == FELICA_TOO_LONG, "a forecast of a huge payload");
            } else {
                check(answer == (uint64_t)sealed_size(mark, sizes[i]) << 16, "a forecast of a small payload");
            }
        }
    }
}
