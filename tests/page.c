/* What crate `page` hands out of a script on standard input, as tests/page compares it with the module. */
#include <stdint.h>
#include <stdio.h>

struct told { uint32_t made, rows, read; };
void page_play(const uint8_t *, size_t, uint8_t *, size_t, uint8_t *, size_t, uint8_t *, size_t, uint8_t *, size_t, struct told *);
static uint8_t script[8 * 4096], answers[4096], image[65536], contents[35840], frames[524288];

int main(void) {
    size_t bytes = fread(script, 1, sizeof script, stdin);
    struct told told;
    page_play(script, bytes, answers, bytes / 8, image, sizeof image, contents, sizeof contents, frames, sizeof frames, &told);
    fwrite(&told, 1, sizeof told, stdout);
    fwrite(answers, 1, bytes / 8, stdout);
    fwrite(image, 1, sizeof image, stdout);
    fwrite(contents, 1, told.read ? sizeof contents : 0, stdout);
    fwrite(frames, 8, told.rows, stdout);
    return 0;
}
