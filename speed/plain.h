/* The measured jobs, once from the proved crates (timing_...) and once from plain.c (plain_...). A slice is a pointer and a length;
   `each` is how many bytes there are of each frame, or of room for it, `places` how many there are of room for a table. */
#include <stddef.h>
#include <stdint.h>

#define JOBS(side) \
    uint64_t side##_read(const uint8_t *bytes, size_t size, uint32_t times); \
    uint64_t side##_write(const uint8_t *bytes, size_t size, uint8_t *room, size_t fits, uint32_t times); \
    uint64_t side##_frame_read(const uint8_t *bytes, size_t size, uint32_t times); \
    uint64_t side##_frame_write(const uint8_t *bytes, size_t size, uint8_t *room, size_t fits, uint32_t times); \
    uint64_t side##_housekeeping_read(const uint8_t *bytes, size_t size, uint32_t each, uint32_t times); \
    uint64_t side##_housekeeping_write(const uint8_t *bytes, size_t size, uint8_t *room, size_t fits, uint32_t each, uint32_t times); \
    uint64_t side##_valve_read(const uint8_t *bytes, size_t size, uint32_t each, uint32_t times); \
    uint64_t side##_valve_write(const uint8_t *bytes, size_t size, uint8_t *room, size_t fits, uint32_t each, uint32_t times); \
    uint64_t side##_valve_carry_out(const uint8_t *bytes, size_t size, uint32_t each, uint32_t times); \
    uint64_t side##_run(const uint8_t *kit, size_t kits, const uint8_t *pupil, size_t pupils, uint8_t *room, size_t fits, uint32_t times); \
    uint64_t side##_seconds(const uint8_t *list, size_t size, uint8_t *room, size_t fits, uint32_t seconds, uint32_t times); \
    uint64_t side##_assemble(const uint8_t *text, size_t size, uint8_t *room, size_t fits, uint32_t times); \
    uint64_t side##_list(const uint8_t *list, size_t size, uint8_t *room, size_t fits, uint32_t times); \
    uint64_t side##_index(const uint8_t *list, size_t size, const uint16_t *old, size_t olds, uint16_t *room, size_t fits, uint32_t times); \
    uint64_t side##_look_up(const uint8_t *list, size_t size, const uint16_t *offsets, size_t count, uint32_t number, uint32_t times); \
    uint64_t side##_shown(const uint8_t *kit, size_t kits, const uint8_t *pupil, size_t pupils, uint8_t sender, uint32_t number, uint32_t times); \
    uint64_t side##_to_card(const uint8_t *list, size_t size, uint8_t *room, size_t fits, uint32_t times); \
    uint64_t side##_from_card(const uint8_t *stored, size_t size, uint8_t *room, size_t fits, uint32_t times); \
    uint64_t side##_rescue(const uint8_t *list, size_t size, uint8_t *room, size_t fits, uint8_t *table, size_t places, uint32_t times); \
    uint64_t side##_queue(const uint8_t *waiting, size_t waits, const uint8_t *events, size_t size, uint32_t times); \
    uint64_t side##_turn(const uint8_t *waiting, size_t waits, uint32_t turns, uint32_t times); \
    uint64_t side##_seats(const uint8_t *events, size_t size);

JOBS(timing)
JOBS(plain)

/* What happens to the four seats is told as events of 24 bytes. A queueing has a seat and the bytes that are queued, a turn has nothing. The last two change
   the state itself, as no call would: one gives the queue of a seat another count, another number of commands queued so far and, where it has the place that
   is named, in that place a command by its opcode, flag and arguments, whatever these are; the other names the seat that was served last, the camera's X, and
   whether macro 0 is closed. */
enum { QUEUE_EVENT, TURN_EVENT, QUEUE_CHANGE, BENCH_CHANGE };
enum { EVENT = 24, SEAT_AT = 1, SIZE_AT = 2 /* of the bytes, or of the queue */, BYTES_AT = 4 };
enum { PLACE_AT = 3, QUEUED_AT = 4, OPCODE_AT = 8, FLAG_AT = 10, FIRST_AT = 12, SECOND_AT = 16 };
enum { X_AT = 2, CLOSED_AT = 4 };
