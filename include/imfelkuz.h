/*
 * imfelkuz.h: a Game Boy cartridge (header, MBC1, MBC2, MBC3 with its clock, MBC5, save file), for programs in C11 or C++17 that link
 * libplayer.a (Linux on x86-64 or aarch64).
 *
 *     static uint8_t ram[IMF_RAM_MAX];                              // enough for every image
 *
 *     uint32_t first_of_ram(const uint8_t *image, size_t image_len, uint64_t now)    // now: the time in seconds
 *     {
 *         imf_facts facts;
 *         imf_cart cart;
 *         uint32_t no = imf_header(image, image_len, &facts);       // what the image is, and how much RAM it wants
 *         if (no == 0)
 *             no = imf_cart_mount(&cart, image, image_len, ram, facts.ram_area, now);
 *         if (no == 0)
 *             no = imf_cart_write(&cart, 0x0000, 0x0A);             // 0, or the number of a refusal
 *         if (no != 0)
 *             return IMF_REFUSED + no;
 *         return imf_cart_read(&cart, 0xA000);                      // a byte, or IMF_REFUSED + the number
 *     }
 *
 * WHAT IS PROVED, AND WHAT IS TESTED
 *   Proved: the calls of the library, imf_header to imf_window_write. Each answers, and leaves every lent byte, as its definition says,
 *   for all bytes that it is lent. docs/PROMISES.md has the definitions, and what is assumed.
 *   Tested: the inline functions behind them, imf_inline_read to imf_cart_save_in. They are C, and restate proved calls or make them one
 *   after the other. player/c/test.c compares each with the calls, on drawn accesses. imf_words, the last, only has words.
 *
 * WHAT IS LENT, AND WHAT STAYS
 *   The image, the RAM area, the save and the 64 bytes of the state are the caller's. Each call is lent them until it returns; the
 *   library keeps no pointer, allocates nothing, opens nothing and has no variable of its own. So calls on different cartridges may run
 *   in different threads; calls on one cartridge must not overlap in time, unless all of them only read.
 *   A refused call has changed no lent byte. A call that answers changes what its comment names and nothing else, but for bytes of a
 *   state that its kind does not use. They are not looked at, and are 0 in a state that the library wrote. Where a caller put something
 *   else there, an accepted imf_write makes them 0, also one that changes RAM or nothing; so do an imf_advance with a timer and an
 *   imf_save_in that brings a clock. An imf_advance without a timer, and a write through windows, leave the state as it is.
 *
 * WHAT A CALLER HAS TO KEEP
 *   1. No pointer is NULL, also where its length is 0: malloc may fail, and may give NULL for 0 bytes, so test it before lending.
 *      Behind a pointer with a length stand that many bytes, and the others point to one whole state, facts, windows or number.
 *   2. Lent ranges do not overlap, unless both are declared const.
 *   3. A pointer to facts, windows or a number is aligned as its type. Bytes may stand anywhere.
 *   Nothing else is asked. Any 64 bytes may be lent as a state, any image, any length, any number: the answer is then a number of the
 *   table below, never a trap and never a byte read or written outside what was lent.
 *
 * THE NUMBERS
 *   Where several hold, the first of them in the call's order gives the number. 0 is never a refusal. A rule that the table names stands
 *   in docs/RULES.md.
 *
 *   (made from refusals.txt by make lists: begin table)
 *    No  Name               Given exactly when
 *     1  IMF_TOO_LONG       the image is longer than 8,388,608 bytes
 *     2  IMF_BAD_LOGO       bytes 0x104 to 0x133 are not the logo
 *     3  IMF_BAD_TITLE      the title is not UTF-8
 *     4  IMF_BAD_TYPE       the type byte at 0x147 is not one of the 24 known
 *     5  IMF_BAD_ROM_CODE   the ROM code at 0x148 is above 8
 *     6  IMF_BAD_ROM_SIZE   the ROM size is neither the image's length, padded, nor can be mended to it
 *     7  IMF_BAD_RAM_CODE   the RAM code at 0x149 is above 5
 *     8  IMF_NEEDLESS_RAM   the header has RAM, and the type has none
 *     9  IMF_BAD_CHECKSUM   the checksum differs from the byte at 0x14D
 *    10  IMF_UNSUPPORTED    the type is MMM01, MBC6 or MBC7
 *    11  IMF_BEYOND         there are more banks, or more RAM, than the mapper can have
 *    12  IMF_WRONG_AREA     the lent RAM area is not as long as the cartridge asks: the header's RAM, and for MBC2 512 bytes more
 *    13  IMF_UNFIT          the 64 bytes are no state or an unfit one (Player 3 and Fit 1 to 9 have the list)
 *    14  IMF_WRONG_LENGTH   the image or the RAM area is not as long as the mounted one
 *    15  IMF_BAD_ADDRESS    the address is outside 0x0000 to 0x7FFF and 0xA000 to 0xBFFF
 *    16  IMF_BAD_SELECTION  a write to 0x4000 to 0x5FFF asks an MBC3 to select 4 to 7 or 0xD to 0xF (the low four bits)
 *    17  IMF_LATE           the clock's time would pass 2^64 - 1 seconds
 *    18  IMF_NO_BATTERY     the type has no battery, so there is no save
 *    19  IMF_SHORT_SAVE     the save is shorter than the RAM area
 *    20  IMF_BAD_BLOCK      the save's clock has a second or minute above 63, an hour above 31 or a day above 511
 *    21  IMF_SHORT_ROOM     the room for the save is too short
 *    22  IMF_UNKNOWN_MARK   a trace has two bytes that are no mark (for readers of traces; no call of the library gives it)
 *    23  IMF_CUT_SHORT      a trace ends within a record (for readers of traces; no call of the library gives it)
 *   (made from refusals.txt by make lists: end table)
 *
 * NUMBER 13
 *   The 64 bytes are no state where
 *     - the kind is above 6, or
 *     - a flag that the kind uses is neither 0 nor 1: the battery; but for no mapper, whether RAM is enabled; of MBC1 the mode; of MBC3
 *       whether RAM is selected; with a timer the latch, and halt and carry of the clock and of its frozen copy.
 *   They are an unfit one where
 *     - the bank count is none of 2, 4, 8 and so on up to the mapper's limit: 2 without a mapper, 128 for MBC1 (multicart: exactly 64),
 *       16 for MBC2, 256 for MBC3, 512 for MBC5,
 *     - the image's length, padded until it is a multiple of 0x4000 and at least 0x8000, is not that many banks of 0x4000,
 *     - the RAM size is none of 0, 0x800, 0x2000, 0x8000, 0x10000 and 0x20000, or without a mapper above 0x2000,
 *     - MBC1: the low register is outside 1 to 31 (multicart: above 15), or the two-bit register above 3,
 *     - MBC2: the ROM bank is outside 1 to 15,
 *     - MBC3: the ROM bank is 0, or the RAM bank above 3; with a timer also where the selected clock register is above 4, the sub-second
 *       above 2,097,151, or of the clock or its frozen copy a second or minute above 63, an hour above 31 or a day above 511,
 *     - MBC5: the ROM bank is above 511, or the RAM bank above 15.
 *   Fields that the kind does not use are not looked at: without a timer, the clock and which of its registers is selected. So more is
 *   taken than the library writes; what it writes is always taken.
 */
#ifndef IMFELKUZ_H
#define IMFELKUZ_H

#include <stddef.h>
#include <stdint.h>

#ifdef __cplusplus
extern "C" {
#endif

/* The version of this header, and of what comes with it: the library and the Rust crate. CHANGELOG.md says what each brought. */
/* made from VERSION by make lists: begin */
#define IMF_VERSION "0.2.0"
#define IMF_VERSION_MAJOR 0
#define IMF_VERSION_MINOR 2
#define IMF_VERSION_PATCH 0
/* made from VERSION by make lists: end */

enum imf_number {
    /* made from refusals.txt by make lists: begin enum */
    IMF_TOO_LONG = 1,
    IMF_BAD_LOGO = 2,
    IMF_BAD_TITLE = 3,
    IMF_BAD_TYPE = 4,
    IMF_BAD_ROM_CODE = 5,
    IMF_BAD_ROM_SIZE = 6,
    IMF_BAD_RAM_CODE = 7,
    IMF_NEEDLESS_RAM = 8,
    IMF_BAD_CHECKSUM = 9,
    IMF_UNSUPPORTED = 10,
    IMF_BEYOND = 11,
    IMF_WRONG_AREA = 12,
    IMF_UNFIT = 13,
    IMF_WRONG_LENGTH = 14,
    IMF_BAD_ADDRESS = 15,
    IMF_BAD_SELECTION = 16,
    IMF_LATE = 17,
    IMF_NO_BATTERY = 18,
    IMF_SHORT_SAVE = 19,
    IMF_BAD_BLOCK = 20,
    IMF_SHORT_ROOM = 21,
    IMF_UNKNOWN_MARK = 22,
    IMF_CUT_SHORT = 23,
    /* made from refusals.txt by make lists: end enum */
};

/* Added to the number where the answer is otherwise a byte: an answer below IMF_REFUSED is the byte. */
#define IMF_REFUSED 0x100u
/* No refusal: the windows cannot say, the state can. Only the four calls over windows answer it. */
#define IMF_ASK 0x200u

/* The longest image, and the longest RAM area that a header can ask for. */
#define IMF_IMAGE_MAX 0x800000u
#define IMF_RAM_MAX 0x20200u
/* A second has this many mapper clocks. */
#define IMF_CLOCKS_PER_SECOND 2097152u
/* Behind the RAM area, the save of a cartridge with a timer has this many bytes. */
#define IMF_CLOCK_BLOCK 21u

/* A mounted cartridge. The bytes may be copied, compared, kept in a file and lent again; what is in them is the library's. The same
 * cartridge is always the same 64 bytes, as the library writes it. A later release takes the states of an earlier one: docs/RULES.md has
 * the bytes, and which are free, under Player 1 and Player 6. */
#define IMF_STATE_SIZE 64
typedef struct imf_state {
    uint8_t bytes[IMF_STATE_SIZE];
} imf_state;

/* The kinds of cartridge. */
enum imf_kind {
    IMF_NO_MAPPER = 0,
    IMF_MBC1 = 1,
    IMF_MBC1_MULTICART = 2,
    IMF_MBC2 = 3,
    IMF_MBC3 = 4,
    IMF_MBC3_TIMER = 5,
    IMF_MBC5 = 6
};

/* What the header of an image says. */
typedef struct imf_facts {
    uint32_t kind;         /* enum imf_kind */
    uint32_t rom_banks;    /* of 16 KiB in the padded image: 2, 4, .. 512 */
    uint32_t ram_size;     /* the header's RAM in bytes */
    uint32_t ram_area;     /* the bytes to lend as RAM: the same, and 512 more for MBC2's half-bytes */
    uint32_t battery;      /* 1 or 0: whether there is a save */
    uint32_t timer;        /* 1 or 0 */
    uint32_t rumble;       /* 1 or 0 */
    uint32_t colour;       /* 1 where the header asks for a Game Boy Color, or 0 */
    uint32_t title;        /* where the title begins in the image: UTF-8 with no zero behind it */
    uint32_t title_length; /* in bytes: 0 to 15 */
    uint32_t reserved[2];  /* 0 */
} imf_facts;

/* How 0xA000 to 0xBFFF is mapped. A number above IMF_BY_STATE means IMF_BY_STATE. */
enum imf_how {
    IMF_NOT_MAPPED = 0, /* reads give 0xFF, writes change nothing */
    IMF_BYTES = 1,      /* bytes of the RAM area */
    IMF_HALF_BYTES = 2, /* reads give 0xF0 | byte, writes keep the low four bits */
    IMF_BY_STATE = 3    /* a clock register: ask imf_read and imf_write */
};

/* Where the windows stand. Ask imf_windows after a mounting, after each accepted write below 0x8000 and after each save that was read;
 * until the next of these they stay, and a refused call moves nothing. Another state has windows of its own. Whatever the numbers are,
 * no call over windows touches a byte that was not lent: a place past the image's end reads 0; one past the RAM area's end reads 0xFF,
 * and a write there answers 0 and writes nothing. (The _t keeps the type apart from the call.) */
typedef struct imf_windows_t {
    uint32_t rom0; /* the place in the image that 0x0000 shows */
    uint32_t romx; /* the place in the image that 0x4000 shows */
    uint32_t ram;  /* the place in the RAM area that 0xA000 shows */
    uint32_t mask; /* the address bits that move on from there */
    uint32_t how;  /* enum imf_how */
    uint32_t reserved;
} imf_windows_t;

/* ---- The calls of the library: proved. ---- */

/* Reads the header. Answers 0 and fills the facts, or refuses with 1 to 11, in this order. Only the header is read, and of a possible
 * multicart three more logos: the cost does not grow with the image. */
uint32_t imf_header(const uint8_t *image, size_t image_len, imf_facts *facts);

/* Mounts the image: writes the state and zeroes the RAM area. wall is the time in seconds, since any fixed moment, from which a timer's
 * clock starts. Refuses with 1 to 12, in this order. */
uint32_t imf_mount(imf_state *state, const uint8_t *image, size_t image_len, uint8_t *ram, size_t ram_len, uint64_t wall);

/* The byte that an address reads, or IMF_REFUSED + the number: 13, 14, 15. What is not mapped reads 0xFF. */
uint32_t imf_read(const imf_state *state, const uint8_t *image, size_t image_len, const uint8_t *ram, size_t ram_len, uint16_t addr);

/* Writes a byte: below 0x8000 to the mapper's registers, from 0xA000 on to one byte of the RAM area or a clock register. What is not
 * mapped takes nothing and is no refusal. Bytes of the state that its kind does not use become 0. Refuses with 13, 14 of the RAM area, 15,
 * 16. */
uint32_t imf_write(imf_state *state, uint8_t *ram, size_t ram_len, uint16_t addr, uint8_t byte);

/* Lets mapper clocks pass, IMF_CLOCKS_PER_SECOND of them in a second. Only a timer's clock moves; without one no byte changes. It costs
 * the same for one clock and for 2^64 - 1 of them. Refuses with 13, 17. */
uint32_t imf_advance(imf_state *state, uint64_t clocks);

/* How many bytes the save has: the RAM area, and IMF_CLOCK_BLOCK for a timer. Refuses with 13, 18. */
uint32_t imf_save_size(const imf_state *state, uint64_t *size);

/* Writes the save at wall time `wall` to the start of the room, and its length to *size. Room beyond it stays. Refuses with 13, 14 of
 * the RAM area, 18, 21. */
uint32_t imf_save_out(const imf_state *state, const uint8_t *ram, size_t ram_len, uint8_t *room, size_t room_len, uint64_t wall,
                      uint64_t *size);

/* Reads a save, at any time after mounting: the RAM area becomes the save's. Later bytes are ignored.
 * *clock becomes 0 where that is all: without a timer, or with fewer than IMF_CLOCK_BLOCK bytes behind the RAM. The state then stays.
 * *clock becomes 1 where the timer's clock came too. It is then the save's: its time becomes `wall` plus the saved offset; second,
 * minute, hour and day are the saved ones; halt and carry, the sub-second, the latch and the frozen copy are cleared. Then second,
 * minute, hour and day step by the time that passed: the new time minus the saved one, in seconds, or 0 if that is negative. Where the
 * day goes from 511 to 0 the carry is set. The mapper's registers stay.
 * Refuses with 13, 14 of the RAM area, 18, 19, 20, 17, in this order. */
uint32_t imf_save_in(imf_state *state, uint8_t *ram, size_t ram_len, const uint8_t *save, size_t save_len, uint64_t wall,
                     uint32_t *clock);

/* Where the windows of a state stand. Refuses with 13. */
uint32_t imf_windows(const imf_state *state, imf_windows_t *windows);

/* What an address reads through windows: the byte, IMF_REFUSED + IMF_BAD_ADDRESS, or IMF_ASK: then ask imf_read. With the windows of a
 * state, and the image and RAM area that it was mounted with, the byte is what imf_read gives. A place past the image's end reads 0, one
 * past the RAM area's end 0xFF. */
uint32_t imf_window_read(const imf_windows_t *windows, const uint8_t *image, size_t image_len, const uint8_t *ram, size_t ram_len,
                         uint16_t addr);

/* Writes a byte through windows: 0 where it is done, IMF_BAD_ADDRESS, or IMF_ASK (a register, of the mapper or of the clock): then ask
 * imf_write. Where nothing is mapped, and past the RAM area's end, the answer is 0 and nothing is written. */
uint32_t imf_window_write(const imf_windows_t *windows, uint8_t *ram, size_t ram_len, uint16_t addr, uint8_t byte);

#ifdef __cplusplus
}
#endif

/* ---- Inline from here on: not proved, but compared with the calls above by running. The first two need no library: they are the same
 * windows for the compiler to put into the caller's loop. ---- */

/* As imf_window_read. */
static inline uint32_t imf_inline_read(const imf_windows_t *windows, const uint8_t *image, size_t image_len, const uint8_t *ram,
                                       size_t ram_len, uint16_t addr)
{
    if (addr < 0x8000u) {
        size_t at = addr < 0x4000u ? windows->rom0 : windows->romx;
        at += addr & 0x3FFFu;
        return at < image_len ? image[at] : 0u;
    }
    if ((addr & 0xE000u) == 0xA000u) {
        if (windows->how == IMF_NOT_MAPPED)
            return 0xFFu;
        if (windows->how <= IMF_HALF_BYTES) {
            size_t at = windows->ram;
            at += addr & windows->mask;
            uint32_t byte = at < ram_len ? ram[at] : 0xFFu;
            return windows->how == IMF_BYTES ? byte : byte | 0xF0u;
        }
        return IMF_ASK;
    }
    return IMF_REFUSED + IMF_BAD_ADDRESS;
}

/* As imf_window_write. */
static inline uint32_t imf_inline_write(const imf_windows_t *windows, uint8_t *ram, size_t ram_len, uint16_t addr, uint8_t byte)
{
    if (addr < 0x8000u)
        return IMF_ASK;
    if ((addr & 0xE000u) == 0xA000u) {
        if (windows->how == IMF_NOT_MAPPED)
            return 0u;
        if (windows->how <= IMF_HALF_BYTES) {
            size_t at = windows->ram;
            at += addr & windows->mask;
            if (windows->how == IMF_HALF_BYTES)
                byte &= 0x0Fu;
            if (at < ram_len)
                ram[at] = byte;
            return 0u;
        }
        return IMF_ASK;
    }
    return IMF_BAD_ADDRESS;
}

/* A state with its windows and where its image and RAM area stand: all that a player passes around. Reads and RAM writes take the windows,
 * and the library where they cannot say. The image and the RAM area stay the caller's; while they are mounted they must not move. */
typedef struct imf_cart {
    imf_state state;
    imf_windows_t windows;
    const uint8_t *image;
    size_t image_len;
    uint8_t *ram;
    size_t ram_len;
} imf_cart;

/* As imf_mount. A refusal leaves the cart as it was. */
static inline uint32_t imf_cart_mount(imf_cart *cart, const uint8_t *image, size_t image_len, uint8_t *ram, size_t ram_len,
                                      uint64_t wall)
{
    uint32_t number = imf_mount(&cart->state, image, image_len, ram, ram_len, wall);
    if (number != 0)
        return number;
    cart->image = image;
    cart->image_len = image_len;
    cart->ram = ram;
    cart->ram_len = ram_len;
    return imf_windows(&cart->state, &cart->windows);
}

/* Takes up a state that was kept, with its image and RAM area as they then were. Refuses with 13, 14, and leaves the cart as it was. */
static inline uint32_t imf_cart_resume(imf_cart *cart, const imf_state *state, const uint8_t *image, size_t image_len, uint8_t *ram,
                                       size_t ram_len)
{
    uint32_t answer = imf_read(state, image, image_len, ram, ram_len, 0x0000);
    if (answer >= IMF_REFUSED)
        return answer - IMF_REFUSED;
    cart->state = *state;
    cart->image = image;
    cart->image_len = image_len;
    cart->ram = ram;
    cart->ram_len = ram_len;
    return imf_windows(&cart->state, &cart->windows);
}

/* As imf_read: the byte, or IMF_REFUSED + 15. */
static inline uint32_t imf_cart_read(const imf_cart *cart, uint16_t addr)
{
    uint32_t answer = imf_inline_read(&cart->windows, cart->image, cart->image_len, cart->ram, cart->ram_len, addr);
    if (answer != IMF_ASK)
        return answer;
    return imf_read(&cart->state, cart->image, cart->image_len, cart->ram, cart->ram_len, addr);
}

/* As imf_write: 0, or 15, 16. */
static inline uint32_t imf_cart_write(imf_cart *cart, uint16_t addr, uint8_t byte)
{
    uint32_t number = imf_inline_write(&cart->windows, cart->ram, cart->ram_len, addr, byte);
    if (number != IMF_ASK)
        return number;
    number = imf_write(&cart->state, cart->ram, cart->ram_len, addr, byte);
    if (number != 0 || addr >= 0x8000u)
        return number;
    return imf_windows(&cart->state, &cart->windows);
}

/* As imf_advance: 0, or 17. */
static inline uint32_t imf_cart_advance(imf_cart *cart, uint64_t clocks)
{
    return imf_advance(&cart->state, clocks);
}

/* As imf_save_size: 0, or 18. */
static inline uint32_t imf_cart_save_size(const imf_cart *cart, uint64_t *size)
{
    return imf_save_size(&cart->state, size);
}

/* As imf_save_out: 0, or 18, 21. */
static inline uint32_t imf_cart_save_out(const imf_cart *cart, uint8_t *room, size_t room_len, uint64_t wall, uint64_t *size)
{
    return imf_save_out(&cart->state, cart->ram, cart->ram_len, room, room_len, wall, size);
}

/* As imf_save_in: 0, or 18, 19, 20, 17. */
static inline uint32_t imf_cart_save_in(imf_cart *cart, const uint8_t *save, size_t save_len, uint64_t wall, uint32_t *clock)
{
    uint32_t number = imf_save_in(&cart->state, cart->ram, cart->ram_len, save, save_len, wall, clock);
    if (number != 0)
        return number;
    return imf_windows(&cart->state, &cart->windows);
}

/* A refusal in words: of its number, or of what a read answered (IMF_REFUSED + the number). 0, IMF_ASK and numbers that are none have
 * words too. A byte that was read is no number: test first that the answer is not below IMF_REFUSED. */
static inline const char *imf_words(uint32_t answer)
{
    if (answer == IMF_ASK)
        return "no refusal: the windows cannot say, the state can";
    switch (answer > IMF_REFUSED ? answer - IMF_REFUSED : answer) {
    case 0: return "no refusal";
    /* made from refusals.txt by make lists: begin words */
    case IMF_TOO_LONG: return "the image is longer than 8 MiB";
    case IMF_BAD_LOGO: return "the logo is not in the header";
    case IMF_BAD_TITLE: return "the title is not UTF-8";
    case IMF_BAD_TYPE: return "the type byte is unknown";
    case IMF_BAD_ROM_CODE: return "the ROM code is above 8";
    case IMF_BAD_ROM_SIZE: return "the ROM size does not go with the image's length";
    case IMF_BAD_RAM_CODE: return "the RAM code is above 5";
    case IMF_NEEDLESS_RAM: return "the header has RAM and the type has none";
    case IMF_BAD_CHECKSUM: return "the header's checksum is wrong";
    case IMF_UNSUPPORTED: return "MMM01, MBC6 and MBC7 are not supported";
    case IMF_BEYOND: return "more banks or RAM than the mapper can have";
    case IMF_WRONG_AREA: return "the RAM area is not as long as the header asks";
    case IMF_UNFIT: return "the bytes are no state of a cartridge";
    case IMF_WRONG_LENGTH: return "the image or the RAM area is not as long as the mounted one";
    case IMF_BAD_ADDRESS: return "the address is outside the cartridge";
    case IMF_BAD_SELECTION: return "MBC3 has no such selection";
    case IMF_LATE: return "the clock's time would pass 2^64 - 1 seconds";
    case IMF_NO_BATTERY: return "the cartridge has no battery";
    case IMF_SHORT_SAVE: return "the save is shorter than the RAM area";
    case IMF_BAD_BLOCK: return "a register of the save's clock is too large";
    case IMF_SHORT_ROOM: return "the room for the save is too short";
    case IMF_UNKNOWN_MARK: return "the trace has an unknown mark";
    case IMF_CUT_SHORT: return "the trace ends within a record";
    /* made from refusals.txt by make lists: end words */
    default: return "no number of a refusal";
    }
}

#endif
