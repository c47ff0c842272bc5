/* The rest of a player around README's example in C: starts, plays a frame, keeps the save and starts with it. */
#include "imfelkuz.h"

#include <stdio.h>

uint32_t start(imf_cart *cart, const uint8_t *image, size_t image_len, uint8_t *ram, const uint8_t *save, size_t save_len, uint64_t now);
uint32_t frame(imf_cart *cart);
uint32_t keep(const imf_cart *cart, uint8_t *room, size_t room_len, uint64_t now, uint64_t *size);

static uint8_t image[IMF_IMAGE_MAX], ram[IMF_RAM_MAX], room[IMF_RAM_MAX + IMF_CLOCK_BLOCK];

int main(void)
{
    imf_cart cart;
    uint64_t size;
    FILE *file = fopen("game.gb", "rb");
    size_t len = file == NULL ? 0 : fread(image, 1, sizeof image, file);
    uint32_t no = start(&cart, image, len, ram, room, 0, 5);
    if (no != 0) {
        fprintf(stderr, "%s\n", imf_words(no));
        return 1;
    }
    if (frame(&cart) >= IMF_REFUSED || keep(&cart, room, sizeof room, 6, &size) != 0 || size == 0)
        return 1;
    return start(&cart, image, len, ram, room, (size_t)size, 7) == 0 ? 0 : 1;
}
