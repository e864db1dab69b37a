#include "desk.h"

const char *desk_version(void) { return DESK_VERSION; }
