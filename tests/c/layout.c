/* The header as C11. */
#define ASSERT _Static_assert
#include "layout.h"
