/* mix COUNT [writes]: prints so many events of the standard mix of TPC-C (clause 5.2.3), for one warehouse of 3,000 customers a
   district and 100,000 items: of 100 events 45 new orders, 43 payments, 4 order statuses, 4 deliveries and 4 stock levels. With
   `writes` the new orders and payments alone, so many of them. The events are the same in each run. */
#include <stdint.h>
#include <stdio.h>
#include <stdlib.h>
#include <string.h>

enum { CUSTOMERS = 3000, ITEMS = 100000 };

static uint64_t state;

/* A number from 1 to `most`. */
static int among(int most) {
  uint64_t x = state += 0x9E3779B97F4A7C15u;
  x = (x ^ (x >> 30)) * 0xBF58476D1CE4E5B9u;
  x = (x ^ (x >> 27)) * 0x94D049BB133111EBu;
  return (int)(1 + (x ^ (x >> 31)) % (uint64_t)most);
}

int main(int count, char **words) {
  if (count < 2) {
    fprintf(stderr, "mix COUNT [writes]\n");
    return 2;
  }
  long wanted = atol(words[1]), printed = 0;
  int is_writes = count > 2 && strcmp(words[2], "writes") == 0;
  for (long at = 1; printed < wanted; at++) {
    state = (uint64_t)at * 1000003u + 1;
    int lot = among(100), district = among(10), customer = among(CUSTOMERS);
    if (is_writes && lot > 88) continue;
    if (lot <= 45) {
      int lines = 4 + among(11);
      printf("neworder 1 %d %d %ld", district, customer, at);
      for (int it = 0; it < lines; it++) {
        int item = among(ITEMS);
        printf(" %d:1:%d", item, among(10));
      }
      printf("\n");
    } else if (lot <= 88) {
      printf("payment 1 %d 1 %d %d %d %ld\n", district, district, customer, 99 + among(4901), at);
    } else if (lot <= 92) {
      printf("orderstatus 1 %d %d\n", district, customer);
    } else if (lot <= 96) {
      printf("delivery 1 %d %ld\n", among(10), at);
    } else {
      printf("stocklevel 1 %d %d\n", district, 9 + among(11));
    }
    printed++;
  }
  return 0;
}
