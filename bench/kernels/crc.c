/* The 32-bit cyclic redundancy check of 160 bytes, bit by bit. */
int main(void) {
  unsigned int crc = 0xFFFFFFFFu;
  int i;
  int k;
  for (i = 0; i < 160; i++) {
    crc = crc ^ (unsigned int) (i * 7 & 255);
    for (k = 0; k < 8; k++) {
      if (crc & 1u) crc = crc >> 1 ^ 0xEDB88320u;
      else crc = crc >> 1;
    }
  }
  return (int) (crc % 251u);
}
