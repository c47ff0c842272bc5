/* The header and the library from C: the rules' trace on a cartridge made here, the refusals that C can meet, guard bytes around what is lent,
 * and every inline function against the call that it restates. The same file is compiled as C11 and as C++17. Prints the trace's text and a count of checks. */
#include "imfelkuz.h"

#include <stdio.h>
#include <stdlib.h>
#include <string.h>

/* A cast in the words of either language. */
#ifdef __cplusplus
#define AS(type, value) static_cast<type>(value)
#else
#define AS(type, value) ((type)(value))
#endif

static unsigned long checks;

#define CHECK(cond)                                                              \
    do {                                                                         \
        checks++;                                                                \
        if (!(cond)) {                                                           \
            fprintf(stderr, "%s:%d: not so: %s\n", __FILE__, __LINE__, #cond);   \
            exit(1);                                                             \
        }                                                                        \
    } while (0)

static const uint8_t logo[48] = {
    0xCE, 0xED, 0x66, 0x66, 0xCC, 0x0D, 0x00, 0x0B, 0x03, 0x73, 0x00, 0x83, 0x00, 0x0C, 0x00, 0x0D, 0x00, 0x08, 0x11, 0x1F, 0x88, 0x89, 0x00, 0x0E,
    0xDC, 0xCC, 0x6E, 0xE6, 0xDD, 0xDD, 0xD9, 0x99, 0xBB, 0xBB, 0x67, 0x63, 0x6E, 0x0E, 0xEC, 0xCC, 0xDD, 0xDC, 0x99, 0x9F, 0xBB, 0xB9, 0x33, 0x3E};

static uint32_t seed = 2463534242u;

static uint32_t drawn(void)
{
    seed ^= seed << 13;
    seed ^= seed >> 17;
    seed ^= seed << 5;
    return seed;
}

static void checksum(uint8_t *image)
{
    uint8_t sum = 0;
    for (size_t i = 0x134; i <= 0x14C; i++)
        sum = AS(uint8_t, sum - image[i] - 1);
    image[0x14D] = sum;
}

/* An image with a header; every byte else is drawn. */
static uint8_t *image_of(size_t len, uint8_t type, uint8_t rom_code, uint8_t ram_code)
{
    uint8_t *image = AS(uint8_t *, malloc(len));
    CHECK(image != NULL);
    for (size_t i = 0; i < len; i++)
        image[i] = AS(uint8_t, drawn() >> 24);
    memset(image + 0x134, 0, 0x1A);
    memcpy(image + 0x104, logo, sizeof logo);
    memcpy(image + 0x134, "IMFELKUZ", 8);
    image[0x147] = type;
    image[0x148] = rom_code;
    image[0x149] = ram_code;
    checksum(image);
    return image;
}

/* Bytes with 16 guards on either side. */
enum { GUARD = 16, GUARD_BYTE = 0xA5 };

static uint8_t *guarded(size_t len)
{
    uint8_t *all = AS(uint8_t *, malloc(len + 2 * GUARD));
    CHECK(all != NULL);
    memset(all, GUARD_BYTE, len + 2 * GUARD);
    return all + GUARD;
}

static void check_guards(const uint8_t *bytes, size_t len)
{
    for (size_t i = 0; i < GUARD; i++) {
        CHECK(bytes[AS(ptrdiff_t, i) - GUARD] == GUARD_BYTE);
        CHECK(bytes[len + i] == GUARD_BYTE);
    }
}

static void release(uint8_t *bytes, size_t len)
{
    check_guards(bytes, len);
    free(bytes - GUARD);
}

/* A little text to compare. */
static char text[1024];

static void say(const char *line)
{
    CHECK(strlen(text) + strlen(line) < sizeof text);
    strcat(text, line);
}

/* The trace's records: RD address, WR address byte, CK count. */
static void replay(imf_cart *cart, const uint8_t *trace, size_t len)
{
    char line[40];
    size_t at = 0;
    unsigned records = 0;
    while (at < len) {
        const uint8_t *body = trace + at + 2;
        size_t left = len - at;
        size_t size;
        uint32_t answer;
        if (left < 2)
            break;
        if (memcmp(trace + at, "RD", 2) == 0)
            size = 4;
        else if (memcmp(trace + at, "WR", 2) == 0)
            size = 5;
        else if (memcmp(trace + at, "CK", 2) == 0)
            size = 6;
        else
            break;
        if (left < size)
            break;
        if (size == 6) {
            uint32_t clocks = body[0] | AS(uint32_t, body[1]) << 8 | AS(uint32_t, body[2]) << 16 | AS(uint32_t, body[3]) << 24;
            answer = imf_cart_advance(cart, clocks);
            snprintf(line, sizeof line, "C %lu\n", AS(unsigned long, clocks));
        } else {
            uint16_t addr = AS(uint16_t, body[0] | body[1] << 8);
            if (size == 4) {
                answer = imf_cart_read(cart, addr);
                snprintf(line, sizeof line, "R %04X %02X\n", AS(unsigned, addr), AS(unsigned, answer & 0xFF));
                answer = answer < IMF_REFUSED ? 0 : answer - IMF_REFUSED;
            } else {
                answer = imf_cart_write(cart, addr, body[2]);
                snprintf(line, sizeof line, "W %04X %02X\n", AS(unsigned, addr), AS(unsigned, body[2]));
            }
        }
        if (answer != 0)
            snprintf(line, sizeof line, "X %u\n", AS(unsigned, answer));
        say(line);
        records++;
        at += size;
    }
    if (at < len)
        snprintf(line, sizeof line, "T %lu\n", AS(unsigned long, at));
    else
        line[0] = 0;
    say(line);
    snprintf(line, sizeof line, "end %u\n", records);
    say(line);
}

static void trace(void)
{
    static const uint8_t records[] = {0x57, 0x52, 0x00, 0x00, 0x0A, 0x57, 0x52, 0x00, 0xA0, 0x5C, 0x52, 0x44,
                                      0x00, 0xA0, 0x43, 0x4B, 0x05, 0x00, 0x00, 0x00, 0x52, 0x44, 0x00, 0x80};
    uint8_t *image = image_of(0x8000, 3, 0, 2);
    uint8_t *ram = guarded(0x2000);
    imf_cart cart;
    CHECK(imf_cart_mount(&cart, image, 0x8000, ram, 0x2000, 0) == 0);
    replay(&cart, records, sizeof records);
    CHECK(strcmp(text, "W 0000 0A\nW A000 5C\nR A000 5C\nC 5\nX 15\nend 5\n") == 0);
    fputs(text, stdout);
    release(ram, 0x2000);
    free(image);
}

static void facts(void)
{
    uint8_t *image = image_of(0x20000, 0x10, 2, 3);
    imf_facts facts;
    CHECK(sizeof facts == 12 * sizeof(uint32_t));
    CHECK(sizeof(imf_windows_t) == 6 * sizeof(uint32_t));
    CHECK(sizeof(imf_state) == IMF_STATE_SIZE);
    image[0x143] = 0x80;
    checksum(image);
    CHECK(imf_header(image, 0x20000, &facts) == 0);
    CHECK(facts.kind == IMF_MBC3_TIMER && facts.rom_banks == 8 && facts.ram_size == 0x8000 && facts.ram_area == 0x8000);
    CHECK(facts.battery == 1 && facts.timer == 1 && facts.rumble == 0 && facts.colour == 1);
    CHECK(facts.title_length == 8 && memcmp(image + facts.title, "IMFELKUZ", 8) == 0);
    free(image);
    image = image_of(0x40000, 6, 3, 2);
    CHECK(imf_header(image, 0x40000, &facts) == 0);
    CHECK(facts.kind == IMF_MBC2 && facts.ram_size == 0x2000 && facts.ram_area == 0x2200 && facts.battery == 1 && facts.colour == 0);
    free(image);
}

/* What a wrong image is answered, by header and by mounting; the facts, the state and the RAM stay. */
static void refused_image(const uint8_t *image, size_t len, uint32_t number)
{
    uint8_t *ram = guarded(0x2000);
    imf_facts facts, facts_before;
    imf_state state, before;
    memset(&facts, 0x3C, sizeof facts);
    facts_before = facts;
    memset(&state, 0x5A, sizeof state);
    before = state;
    memset(ram, 0x77, 0x2000);
    CHECK(imf_header(image, len, &facts) == number);
    CHECK(imf_mount(&state, image, len, ram, 0x2000, 1) == number);
    CHECK(memcmp(&facts, &facts_before, sizeof facts) == 0);
    CHECK(memcmp(&state, &before, sizeof state) == 0);
    for (size_t i = 0; i < 0x2000; i++)
        if (ram[i] != 0x77)
            CHECK(ram[i] == 0x77);
    release(ram, 0x2000);
}

static void spoilt(size_t at, uint8_t byte, int fix, uint32_t number)
{
    uint8_t *image = image_of(0x8000, 3, 0, 2);
    image[at] = byte;
    if (fix)
        checksum(image);
    refused_image(image, 0x8000, number);
    free(image);
}

static void refusals(void)
{
    uint8_t *image = AS(uint8_t *, calloc(IMF_IMAGE_MAX + 1, 1));
    CHECK(image != NULL);
    refused_image(image, IMF_IMAGE_MAX + 1, IMF_TOO_LONG);
    refused_image(image, 0, IMF_BAD_LOGO);
    free(image);
    spoilt(0x133, 0x3F, 1, IMF_BAD_LOGO);
    spoilt(0x134, 0xFF, 1, IMF_BAD_TITLE);
    spoilt(0x147, 0x04, 1, IMF_BAD_TYPE);
    spoilt(0x148, 9, 1, IMF_BAD_ROM_CODE);
    spoilt(0x148, 1, 1, IMF_BAD_ROM_SIZE);
    spoilt(0x149, 6, 1, IMF_BAD_RAM_CODE);
    spoilt(0x147, 1, 1, IMF_NEEDLESS_RAM);
    spoilt(0x140, 1, 0, IMF_BAD_CHECKSUM);
    spoilt(0x147, 0x0D, 1, IMF_UNSUPPORTED);
    image = image_of(0x10000, 9, 1, 2);
    refused_image(image, 0x10000, IMF_BEYOND);
    free(image);

    image = image_of(0x8000, 0x10, 0, 2);
    uint8_t *ram = guarded(0x2000);
    uint8_t *room = guarded(0x2015);
    imf_state state, before, noise;
    imf_windows_t windows;
    uint64_t size = 0;
    uint32_t clock = 7;
    CHECK(imf_mount(&state, image, 0x8000, ram, 0x1FFF, 1) == IMF_WRONG_AREA);
    CHECK(ram[0] == GUARD_BYTE);
    CHECK(imf_mount(&state, image, 0x8000, ram, 0x2000, 1) == 0);
    CHECK(ram[0] == 0 && ram[0x1FFF] == 0);
    before = state;
    memset(&noise, 0xFF, sizeof noise);
    CHECK(imf_read(&noise, image, 0x8000, ram, 0x2000, 0) == IMF_REFUSED + IMF_UNFIT);
    CHECK(imf_write(&noise, ram, 0x2000, 0, 0) == IMF_UNFIT);
    CHECK(imf_advance(&noise, 1) == IMF_UNFIT);
    CHECK(imf_save_size(&noise, &size) == IMF_UNFIT);
    CHECK(imf_save_out(&noise, ram, 0x2000, room, 0x2015, 1, &size) == IMF_UNFIT);
    CHECK(imf_save_in(&noise, ram, 0x2000, room, 0x2015, 1, &clock) == IMF_UNFIT);
    CHECK(imf_windows(&noise, &windows) == IMF_UNFIT);
    CHECK(imf_read(&state, image, 0x7FFF, ram, 0x2000, 0) == IMF_REFUSED + IMF_WRONG_LENGTH);
    CHECK(imf_read(&state, image, 0x8000, ram, 0x1FFF, 0) == IMF_REFUSED + IMF_WRONG_LENGTH);
    CHECK(imf_write(&state, ram, 0x1FFF, 0, 0) == IMF_WRONG_LENGTH);
    CHECK(imf_read(&state, image, 0x8000, ram, 0x2000, 0xC000) == IMF_REFUSED + IMF_BAD_ADDRESS);
    CHECK(imf_write(&state, ram, 0x2000, 0x9FFF, 0) == IMF_BAD_ADDRESS);
    CHECK(imf_write(&state, ram, 0x2000, 0x4000, 0x07) == IMF_BAD_SELECTION);
    CHECK(imf_save_out(&state, ram, 0x2000, room, 0x2014, 1, &size) == IMF_SHORT_ROOM);
    CHECK(imf_save_in(&state, ram, 0x2000, room, 0x1FFF, 1, &clock) == IMF_SHORT_SAVE);
    CHECK(imf_save_in(&state, ram, 0x2000, room, 0x2015, 1, &clock) == IMF_BAD_BLOCK);
    CHECK(memcmp(&state, &before, sizeof state) == 0 && size == 0 && clock == 7);

    /* A save out and in again; with its block's offset at its greatest, there is no room in the time. */
    CHECK(imf_save_size(&state, &size) == 0 && size == 0x2015);
    CHECK(imf_save_out(&state, ram, 0x2000, room, 0x2015, 1, &size) == 0 && size == 0x2015);
    CHECK(imf_save_in(&state, ram, 0x2000, room, 0x2014, 1, &clock) == 0 && clock == 0);
    CHECK(imf_save_in(&state, ram, 0x2000, room, 0x2015, 1, &clock) == 0 && clock == 1);
    CHECK(memcmp(&state, &before, sizeof state) == 0);
    memset(room + 0x200D, 0xFF, 8);
    CHECK(imf_save_in(&state, ram, 0x2000, room, 0x2015, 1, &clock) == IMF_LATE);
    CHECK(imf_mount(&state, image, 0x8000, ram, 0x2000, UINT64_MAX) == 0);
    CHECK(imf_advance(&state, IMF_CLOCKS_PER_SECOND) == IMF_LATE);
    CHECK(imf_advance(&state, IMF_CLOCKS_PER_SECOND - 1) == 0);
    free(image);
    image = image_of(0x8000, 2, 0, 2);
    CHECK(imf_mount(&state, image, 0x8000, ram, 0x2000, 1) == 0);
    CHECK(imf_save_size(&state, &size) == IMF_NO_BATTERY);
    release(room, 0x2015);
    release(ram, 0x2000);
    free(image);
}

/* Each number has words of its own, and the answer of a refused read has its number's. */
static void words(void)
{
    static const uint32_t none[] = {0x100, 0x1FF, 0x201, 0x20F, 0xFFFFFFFFu};
    const char *no_number = imf_words(0xFF);
    for (uint32_t n = 0; n < 0xFF; n++) {
        if (n > 0)
            CHECK(strcmp(imf_words(IMF_REFUSED + n), imf_words(n)) == 0);
        if (strcmp(imf_words(n), no_number) == 0) {
            CHECK(n > IMF_CUT_SHORT);
            continue;
        }
        CHECK(strcmp(imf_words(n), imf_words(IMF_ASK)) != 0);
        for (uint32_t m = 0; m < n; m++)
            CHECK(strcmp(imf_words(n), imf_words(m)) != 0);
    }
    for (size_t i = 0; i < sizeof none / sizeof none[0]; i++)
        CHECK(strcmp(imf_words(none[i]), no_number) == 0);
}

/* The version as text is its three numbers. */
static void version(void)
{
    char numbers[40];
    snprintf(numbers, sizeof numbers, "%d.%d.%d", IMF_VERSION_MAJOR, IMF_VERSION_MINOR, IMF_VERSION_PATCH);
    CHECK(strcmp(IMF_VERSION, numbers) == 0);
}

/* Windows whose place is beyond what is lent: RAM reads 0xFF and takes nothing, which is no refusal; the image reads 0. */
static void beyond(void)
{
    uint8_t *image = guarded(16), *ram = guarded(16);
    memset(image, 0x11, 16);
    memset(ram, 0x22, 16);
    for (uint32_t how = IMF_BYTES; how <= IMF_HALF_BYTES; how++) {
        imf_windows_t windows = {0, 8, 8, 0x1FFF, 0, 0};
        windows.how = how;
        CHECK(imf_window_read(&windows, image, 16, ram, 16, 0xA008) == 0xFF);
        CHECK(imf_inline_read(&windows, image, 16, ram, 16, 0xA008) == 0xFF);
        CHECK(imf_window_write(&windows, ram, 16, 0xA008, 0x55) == 0);
        CHECK(imf_inline_write(&windows, ram, 16, 0xA008, 0x55) == 0);
        CHECK(imf_window_read(&windows, image, 16, ram, 16, 0xA007) == (how == IMF_BYTES ? 0x22u : 0xF2u));
        CHECK(imf_window_read(&windows, image, 16, ram, 16, 0x4007) == 0x11);
        CHECK(imf_window_read(&windows, image, 16, ram, 16, 0x4008) == 0);
        CHECK(imf_inline_read(&windows, image, 16, ram, 16, 0x0010) == 0);
    }
    for (size_t i = 0; i < 16; i++)
        CHECK(ram[i] == 0x22);
    release(image, 16);
    release(ram, 16);
}

/* A save that is read: the clock is the save's, whatever this one's was, and has stepped by the time that passed. */
static void woken(void)
{
    uint8_t *image = image_of(0x8000, 0x0F, 0, 0);
    uint8_t *ram = guarded(0);
    uint8_t room[IMF_CLOCK_BLOCK];
    imf_cart fresh, used;
    imf_state before;
    uint64_t size = 0;
    uint32_t clock = 7;
    CHECK(imf_cart_mount(&fresh, image, 0x8000, ram, 0, 100) == 0);
    CHECK(imf_cart_write(&fresh, 0xA000, 58) == 0);
    CHECK(imf_cart_save_out(&fresh, room, sizeof room, 100, &size) == 0 && size == IMF_CLOCK_BLOCK);

    /* Within a second, halted, with a carry and a day, and frozen. */
    CHECK(imf_cart_mount(&used, image, 0x8000, ram, 0, 7) == 0);
    CHECK(imf_cart_advance(&used, IMF_CLOCKS_PER_SECOND - 1) == 0);
    CHECK(imf_cart_write(&used, 0x4000, 0x0C) == 0 && imf_cart_write(&used, 0xA000, 0xC1) == 0);
    CHECK(imf_cart_write(&used, 0x6000, 1) == 0 && imf_cart_write(&used, 0x4000, 0x08) == 0);
    before = used.state;
    CHECK(imf_cart_save_in(&used, room, sizeof room - 1, 103, &clock) == 0 && clock == 0);
    CHECK(memcmp(&used.state, &before, sizeof before) == 0);
    CHECK(imf_cart_save_in(&used, room, sizeof room, 103, &clock) == 0 && clock == 1);
    CHECK(imf_cart_mount(&fresh, image, 0x8000, ram, 0, 100) == 0);
    CHECK(imf_cart_save_in(&fresh, room, sizeof room, 103, &clock) == 0 && clock == 1);
    CHECK(memcmp(&used.state, &fresh.state, sizeof before) == 0);

    CHECK(imf_cart_read(&used, 0xA000) == 1);
    CHECK(imf_cart_write(&used, 0x4000, 0x09) == 0 && imf_cart_read(&used, 0xA000) == 1);
    CHECK(imf_cart_write(&used, 0x4000, 0x0C) == 0 && imf_cart_read(&used, 0xA000) == 0);
    CHECK(imf_cart_write(&used, 0x4000, 0x08) == 0);
    CHECK(imf_cart_advance(&used, IMF_CLOCKS_PER_SECOND - 1) == 0 && imf_cart_read(&used, 0xA000) == 1);
    CHECK(imf_cart_advance(&used, 1) == 0 && imf_cart_read(&used, 0xA000) == 2);
    release(ram, 0);
    free(image);
}

/* Bytes of a state that its kind does not use are not looked at, and are 0 again where an accepted call writes the state. */
static void unused(void)
{
    uint8_t *image = image_of(0x8000, 0x00, 0, 0);
    uint8_t *ram = guarded(0);
    imf_state state, other, changed;
    imf_cart cart;
    CHECK(imf_mount(&state, image, 0x8000, ram, 0, 0) == 0);
    changed = state;
    changed.bytes[IMF_STATE_SIZE - 1] = 7;
    other = changed;
    CHECK(imf_write(&other, ram, 0, 0xA000, 1) == 0 && memcmp(&other, &state, sizeof state) == 0);
    other = changed;
    CHECK(imf_write(&other, ram, 0, 0x2000, 1) == 0 && memcmp(&other, &state, sizeof state) == 0);
    other = changed;
    CHECK(imf_write(&other, ram, 0, 0x8000, 1) == IMF_BAD_ADDRESS && memcmp(&other, &changed, sizeof state) == 0);
    CHECK(imf_advance(&other, 5) == 0 && memcmp(&other, &changed, sizeof state) == 0);
    CHECK(imf_cart_resume(&cart, &changed, image, 0x8000, ram, 0) == 0);
    CHECK(imf_cart_write(&cart, 0xA000, 1) == 0 && memcmp(&cart.state, &changed, sizeof state) == 0);
    CHECK(imf_cart_write(&cart, 0x2000, 1) == 0 && memcmp(&cart.state, &state, sizeof state) == 0);
    release(ram, 0);
    free(image);
}

/* The save by the cart and by the calls, out, and in again a while later, with a byte of RAM changed in it. */
static void saves_agree(imf_cart *cart, imf_state *state, uint8_t *other)
{
    size_t area = cart->ram_len, most = area + IMF_CLOCK_BLOCK;
    uint8_t *room = guarded(most), *second = guarded(most);
    uint64_t size = 7, sized = 7;
    uint32_t clock = 7, clocked = 7;
    imf_windows_t windows;
    uint32_t number = imf_save_size(state, &size);
    CHECK(imf_cart_save_size(cart, &sized) == number && sized == size);
    number = imf_save_out(state, other, area, room, most, 3, &size);
    CHECK(imf_cart_save_out(cart, second, most, 3, &sized) == number && sized == size && memcmp(room, second, most) == 0);
    if (area > 0)
        room[area - 1] ^= 1;
    number = imf_save_in(state, other, area, room, most, 1003, &clock);
    CHECK(imf_cart_save_in(cart, room, most, 1003, &clocked) == number && clocked == clock);
    CHECK(memcmp(&cart->state, state, sizeof *state) == 0 && memcmp(cart->ram, other, area) == 0);
    CHECK(imf_windows(state, &windows) == 0 && memcmp(&windows, &cart->windows, sizeof windows) == 0);
    release(room, most);
    release(second, most);
}

/* Registers and RAM written by chance: the inline windows, the calls over windows, the cart and the state agree on every address asked, and
 * on every byte of two RAM areas. */
static void windows_agree(size_t len, uint8_t type, uint8_t rom_code, uint8_t ram_code, unsigned rounds)
{
    uint8_t *image = image_of(len, type, rom_code, ram_code);
    imf_facts facts;
    CHECK(imf_header(image, len, &facts) == 0);
    size_t area = facts.ram_area;
    uint8_t *ram = guarded(area), *other = guarded(area);
    imf_cart cart, resumed;
    imf_state state;
    CHECK(imf_cart_mount(&cart, image, len, ram, area, 5) == 0);
    CHECK(imf_mount(&state, image, len, other, area, 5) == 0);
    for (unsigned i = 0; i < rounds; i++) {
        uint16_t addr = AS(uint16_t, drawn() >> 16);
        uint8_t byte = AS(uint8_t, drawn() >> 24);
        if (i % 3 == 0)
            addr &= 0x7FFF;
        else if (i % 3 == 1)
            addr = AS(uint16_t, 0xA000 | (addr & 0x1FFF));
        if (addr < 0x2000 && i % 5 != 0)
            byte = 0x0A;
        if (drawn() % 2) {
            uint32_t expected = imf_write(&state, other, area, addr, byte);
            CHECK(imf_cart_write(&cart, addr, byte) == expected);
        } else {
            uint32_t expected = imf_read(&state, image, len, other, area, addr);
            uint32_t called = imf_window_read(&cart.windows, image, len, ram, area, addr);
            CHECK(imf_cart_read(&cart, addr) == expected);
            CHECK(imf_inline_read(&cart.windows, image, len, ram, area, addr) == called);
            CHECK(called == IMF_ASK || called == expected);
        }
        if (i % 64 == 0) {
            uint64_t clocks = drawn();
            CHECK(imf_cart_advance(&cart, clocks) == 0 && imf_advance(&state, clocks) == 0);
        }
        CHECK(memcmp(&cart.state, &state, sizeof state) == 0);
    }
    CHECK(memcmp(ram, other, area) == 0);
    CHECK(imf_cart_resume(&resumed, &cart.state, image, len, ram, area) == 0);
    CHECK(memcmp(&resumed.windows, &cart.windows, sizeof cart.windows) == 0);
    CHECK(imf_cart_resume(&resumed, &cart.state, image, len - 1, ram, area) == IMF_WRONG_LENGTH);
    saves_agree(&cart, &state, other);
    /* Any numbers as windows, with what is lent at its shortest. */
    for (unsigned i = 0; i < rounds; i++) {
        imf_windows_t wild;
        uint16_t addr = AS(uint16_t, drawn() >> 16);
        uint8_t byte = AS(uint8_t, drawn() >> 24);
        wild.rom0 = drawn() >> (drawn() % 32);
        wild.romx = drawn() >> (drawn() % 32);
        wild.ram = drawn() >> (drawn() % 32);
        wild.mask = drawn() >> (drawn() % 32);
        wild.how = drawn() % 5;
        wild.reserved = drawn();
        CHECK(imf_inline_read(&wild, image, len, ram, area, addr) == imf_window_read(&wild, image, len, ram, area, addr));
        CHECK(imf_inline_write(&wild, ram, area, addr, byte) == imf_window_write(&wild, other, area, addr, byte));
    }
    CHECK(memcmp(ram, other, area) == 0);
    release(ram, area);
    release(other, area);
    free(image);
}

int main(void)
{
    trace();
    facts();
    refusals();
    words();
    version();
    beyond();
    woken();
    unused();
    windows_agree(0x7001, 0x08, 0, 1, 2000);
    windows_agree(0x8000, 0x09, 0, 2, 2000);
    windows_agree(0x8000, 0x00, 0, 0, 2000);
    windows_agree(0x200000, 0x03, 6, 3, 4000);
    windows_agree(0x0FD00B, 0x02, 5, 1, 4000);
    windows_agree(0x40000, 0x06, 3, 2, 4000);
    windows_agree(0x1D777, 0x05, 2, 0, 4000);
    windows_agree(0x80000, 0x10, 4, 3, 4000);
    windows_agree(0x1FFFF, 0x0F, 2, 0, 4000);
    windows_agree(0x40000, 0x13, 3, 2, 4000);
    windows_agree(0x20000, 0x12, 2, 1, 4000);
    windows_agree(0x7FC001, 0x1E, 8, 5, 4000);
    windows_agree(0x10000, 0x1B, 1, 4, 4000);
    printf("%lu checks\n", checks);
    return 0;
}
