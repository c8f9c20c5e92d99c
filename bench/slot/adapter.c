/* The checking forms behind the interface of the archive, for the comparison through damaged states. */
#include "slots.h"

clurimoon_served adapted_slot(clurimoon_record record, uint8_t *cells, size_t cells_length, uint16_t *links,
                              size_t links_length, uint16_t *calendar, size_t calendar_length, uint32_t *vcs,
                              size_t vcs_length, uint64_t *bits, size_t bits_length, uint32_t *arrived,
                              size_t arrived_length, const uint8_t *cell,
                              size_t cell_length);
clurimoon_burst_end adapted_burst(clurimoon_record record, uint8_t *cells, size_t cells_length, uint16_t *links,
                                  size_t links_length, uint16_t *calendar, size_t calendar_length, uint32_t *vcs,
                                  size_t vcs_length, uint64_t *bits, size_t bits_length, uint32_t *arrived,
                                  size_t arrived_length, const uint8_t *arrivals,
                                  size_t arrivals_length,
                                  const uint8_t *sizes, size_t sizes_length, uint8_t *departures,
                                  size_t departures_length, uint16_t *answers, size_t answers_length);

clurimoon_served adapted_slot(clurimoon_record record, uint8_t *cells, size_t cells_length, uint16_t *links,
                              size_t links_length, uint16_t *calendar, size_t calendar_length, uint32_t *vcs,
                              size_t vcs_length, uint64_t *bits, size_t bits_length, uint32_t *arrived,
                              size_t arrived_length, const uint8_t *cell,
                              size_t cell_length) {
  const lent_memory lent = {cells,        links,        calendar,        vcs,        bits,        arrived,
                            cells_length, links_length, calendar_length, vcs_length, bits_length, arrived_length};
  clurimoon_served served = {record, {0, 0, 0, 0, 0, 0}};
  checking_slot(&served.record, &lent, cell, cell_length, &served.answer);
  return served;
}

clurimoon_burst_end adapted_burst(clurimoon_record record, uint8_t *cells, size_t cells_length, uint16_t *links,
                                  size_t links_length, uint16_t *calendar, size_t calendar_length, uint32_t *vcs,
                                  size_t vcs_length, uint64_t *bits, size_t bits_length, uint32_t *arrived,
                                  size_t arrived_length, const uint8_t *arrivals,
                                  size_t arrivals_length,
                                  const uint8_t *sizes, size_t sizes_length, uint8_t *departures,
                                  size_t departures_length, uint16_t *answers, size_t answers_length) {
  const lent_memory lent = {cells,        links,        calendar,        vcs,        bits,        arrived,
                            cells_length, links_length, calendar_length, vcs_length, bits_length, arrived_length};
  const lent_burst burst = {arrivals,        sizes,        departures,        answers,
                            arrivals_length, sizes_length, departures_length, answers_length};
  const burst_end end = checking_burst(&record, &lent, &burst);
  return (clurimoon_burst_end){record, end.number, end.done};
}
