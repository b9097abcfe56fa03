/* The header by itself, and twice: it brings what it needs, and guards itself. It is compiled as C and as C++. */
#include <chickadoor.h>
#include <chickadoor.h>

uint32_t chickadoor_alone(const struct chickadoor_state *state);

uint32_t chickadoor_alone(const struct chickadoor_state *state) {
    struct chickadoor_built built;
    struct chickadoor_operation operation = {CHICKADOOR_RVAAE1, CHICKADOOR_IS, 0, 0, state->el};
    return chickadoor_build(operation, &built);
}
