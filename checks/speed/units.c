/* Copies a stream of 750 units of 4,105 octets 300 times, in cuts of 1,500 octets, into a buffer of two units: what
   the framing of units cannot do without. */
#include <stdio.h>
#include <stdlib.h>
#include <string.h>

enum { UNIT = 4105, UNITS = 750, TURNS = 300, CUT = 1500, ROOM = 2 * UNIT };

int main(void) {
  size_t size = (size_t)UNIT * UNITS;
  unsigned char *stream = malloc(size);
  static unsigned char room[ROOM];
  unsigned long sum = 0;
  if (!stream) return 1;
  memset(stream, 0xA5, size);
  for (int turn = 0; turn < TURNS; turn++) {
    size_t at = 0;
    for (size_t done = 0; done < size; done += CUT) {
      size_t count = size - done < CUT ? size - done : CUT;
      if (at + count > ROOM) at = 0;
      memcpy(room + at, stream + done, count);
      sum += room[at];
      at += count;
    }
  }
  printf("%lu\n", sum);
  free(stream);
  return 0;
}
