/* What `look` has to say at each refusal, and the header's version in its two forms. */
#include <inttypes.h>
#include <stdio.h>
#include "tenahvar.h"

int main(void) {
    printf("%s %d.%d.%d\n", TENAHVAR_VERSION, TENAHVAR_VERSION_MAJOR, TENAHVAR_VERSION_MINOR, TENAHVAR_VERSION_PATCH);
    for (uint32_t number = 1; number <= 21; number++) printf("look: refused %" PRIu32 ": %s\n", number, tenahvar_refusal_text(number));
    return 0;
}
