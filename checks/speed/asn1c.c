/* Decodes messages by what asn1c makes of asn1c.asn1 (asn1c.py, open.py):
   `apdu FILE TIMES [check]` one APDU so often, with its sizes and characters checked where that is asked for, and
   `spool FILE` the APDU of each Accept of a spool, after reading the file whole. */
#include <Apdu.h>
#include <stdio.h>
#include <stdlib.h>
#include <string.h>

static unsigned char *whole(const char *path, size_t *size) {
  FILE *file = fopen(path, "rb");
  unsigned char *octets;
  if (!file || fseek(file, 0, SEEK_END)) exit(2);
  *size = (size_t)ftell(file);
  octets = malloc(*size + 1);
  rewind(file);
  if (!octets || fread(octets, 1, *size, file) != *size) exit(2);
  fclose(file);
  return octets;
}

static int decode(const unsigned char *octets, size_t size, int check) {
  Apdu_t *apdu = 0;
  asn_dec_rval_t said = ber_decode(0, &asn_DEF_Apdu, (void **)&apdu, octets, size);
  int well = said.code == RC_OK && said.consumed == size;
  if (well && check) well = asn_check_constraints(&asn_DEF_Apdu, apdu, 0, 0) == 0;
  ASN_STRUCT_FREE(asn_DEF_Apdu, apdu);
  return well;
}

static size_t number(const unsigned char *at) {
  return (size_t)at[0] << 24 | (size_t)at[1] << 16 | (size_t)at[2] << 8 | at[3];
}

int main(int count, char **words) {
  size_t size, at, well = 0;
  if (count >= 4 && !strcmp(words[1], "apdu")) {
    unsigned char *octets = whole(words[2], &size);
    long times = atol(words[3]);
    while (times-- > 0) well += decode(octets, size, count > 4);
  } else if (count >= 3 && !strcmp(words[1], "spool")) {
    unsigned char *octets = whole(words[2], &size);
    /* a record: a gate, four octets of length, the body; an Accept: its kind, a moment of eight, a string */
    for (at = 8; at + 5 < size && octets[at] == 1; at += 5 + number(octets + at + 1))
      if (octets[at + 5] == 2) well += decode(octets + at + 18, number(octets + at + 14), 0);
  } else return 1;
  printf("%lu\n", (unsigned long)well);
  return 0;
}
