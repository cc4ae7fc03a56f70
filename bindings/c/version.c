/* What the library says of itself. bindings/library compiles it into libbelt, with the numbers of the file VERSION. */
#include <stdint.h>

uint32_t belt_version(void);
uint32_t BELT_ABI(void);

uint32_t belt_version(void) { return BELT_NUMBER; }
uint32_t BELT_ABI(void) { return BELT_NUMBER; }
