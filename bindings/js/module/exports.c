/* What JavaScript calls: the functions of tinyjson.h with numbers of 32 bits, and memory for what they are passed.
 *
 * `place` says where the struct tinyjson_place of the last call is, whose sizes have 64 bits. `message` is of that place. */
typedef unsigned int u32;
typedef unsigned long long u64;
typedef __UINTPTR_TYPE__ uptr;
typedef unsigned char u8;

#define EXPORT(name) __attribute__((export_name(#name)))

struct place {
    u32 kind, found;
    u64 line, column, length, text;
};

struct allocation {
    u64 ok, place;
};

struct allocation rattle_alloc(u64, u64);
void rattle_dealloc(u8 *);

static struct place place;

EXPORT(place) u32 place_at(void) {
    return (u32)(uptr)&place;
}

/* So many bytes, or 0. */
EXPORT(take) u32 take(u32 size) {
    struct allocation taken = rattle_alloc(size, 1);
    return (u8)taken.ok ? (u32)taken.place : 0;
}

EXPORT(give) void give(u8 *at) {
    rattle_dealloc(at);
}

#define WRITES(name)                                                                              \
    u32 tinyjson_##name(const u8 *, u64, u64, u8 *, u64, struct place *);                         \
    EXPORT(name) u32 call_##name(const u8 *text, u32 length, u32 depth, u8 *buffer, u32 room) {   \
        return tinyjson_##name(text, length, depth, buffer, room, &place);                        \
    }

#define WRITES_OF_TWO(name)                                                                       \
    u32 tinyjson_##name(const u8 *, u64, const u8 *, u64, u64, u8 *, u64, struct place *);        \
    EXPORT(name) u32 call_##name(const u8 *text, u32 length, const u8 *other, u32 other_length,   \
                                 u32 depth, u8 *buffer, u32 room) {                               \
        return tinyjson_##name(text, length, other, other_length, depth, buffer, room, &place);   \
    }

WRITES(normal)
WRITES(indented)
WRITES(normal_lines)
WRITES_OF_TWO(part)
WRITES_OF_TWO(merge)
WRITES_OF_TWO(patch)
WRITES_OF_TWO(select)
WRITES_OF_TWO(select_paths)
WRITES_OF_TWO(select_lines)
WRITES_OF_TWO(select_lines_paths)
WRITES_OF_TWO(valid)
WRITES_OF_TWO(valid_lines)

u32 tinyjson_check(const u8 *, u64, u64, struct place *);
EXPORT(check) u32 call_check(const u8 *text, u32 length, u32 depth) {
    return tinyjson_check(text, length, depth, &place);
}

/* The answers of these two are in the place, at `found`. */
u32 tinyjson_is_normal(const u8 *, u64, _Bool *);
EXPORT(is_normal) u32 call_is_normal(const u8 *text, u32 length) {
    _Bool answer = 0;
    u32 status = tinyjson_is_normal(text, length, &answer);
    place = (struct place){.found = answer};
    return status;
}

u32 tinyjson_equal(const u8 *, u64, const u8 *, u64, u64, _Bool *, struct place *);
EXPORT(equal) u32 call_equal(const u8 *first, u32 length, const u8 *second, u32 second_length, u32 depth) {
    _Bool answer = 0;
    u32 status = tinyjson_equal(first, length, second, second_length, depth, &answer, &place);
    if (status == 0) {
        place.found = answer;
    }
    return status;
}

/* The length of the message, or 0 where it has no room or the place is that of no error. */
u32 tinyjson_message(const struct place *, u8 *, u64, u64 *);
EXPORT(message) u32 call_message(u8 *buffer, u32 room) {
    u64 needed = 0;
    return tinyjson_message(&place, buffer, room, &needed) == 0 ? (u32)needed : 0;
}
