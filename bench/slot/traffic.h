/* The traffic that all forms get: see traffic.c and the README. */
#ifndef TRAFFIC_H
#define TRAFFIC_H
#include <stddef.h>
#include <stdint.h>

/* The kinds of traffic. `sustained`: every second VC has a second bucket, and all cells but one in ten have CLP 0.
   `with_path`: at the NNI, one path carries the cells of every second VC, which is closed. `raw_line`: the plain cells with
   their octet 5, idle cells between them. `with_storm`: one VC more, far above its peak. `all_unknown`: no cell names an open
   connection. `all_empty`: no cell at all. */
typedef enum { plain, sustained, with_path, raw_line, with_storm, all_unknown, all_empty, kinds } traffic;
enum { the_path = 9, the_storm = 15 };

/* What VC `vci` of V is opened with; open is 0 for those left closed. */
typedef struct {
  int open;
  uint8_t m;
  uint32_t f, c;
  uint8_t m2, tag;
  uint32_t f2, c2; /* all 0 for no second bucket */
} contract;
contract contract_of(unsigned vci, unsigned v, traffic kind);
/* What the path is opened with. */
contract contract_of_path(void);

/* Fills in `slots` slots: sizes 0 or 53, arrivals 53 octets a slot. LOAD in percent; it does not matter to `all_empty`. */
void make_traffic(unsigned v, unsigned load, traffic kind, size_t slots, uint8_t *sizes, uint8_t *arrivals);

#endif
