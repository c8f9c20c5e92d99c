/* Must not compile with -Wconversion -Werror: C would cut the VCI before the call. */
#include "clurimoon.h"

uint16_t open_wide(clurimoon_record record, uint32_t *vcs, size_t length, unsigned vci);
uint16_t open_wide(clurimoon_record record, uint32_t *vcs, size_t length, unsigned vci) {
  return clurimoon_open(record, vcs, length, CLURIMOON_OWNER_SECOND, vci, 2, 10, 26);
}
