// The header by itself, twice, in C++: its functions have C names, and its macros read.
#include "panelrights.h"

#include "panelrights.h"

int main()
{
    uint8_t state[PANELRIGHTS_STATE_BYTES];

    if (panelrights_state_bytes() != sizeof state ||
        panelrights_founding(state, sizeof state) != PANELRIGHTS_OK)
        return 1;
    return PANELRIGHTS_HAS_USER(state, 0) && PANELRIGHTS_OWNS(state, 0, 0) && !PANELRIGHTS_OWNS(state, 0, 1)
               ? 0
               : 1;
}
