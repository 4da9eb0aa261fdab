/* The header alone, and twice: it needs no other before it, and may be included again. */
#include "overbrindle.h"
#include "overbrindle.h"
