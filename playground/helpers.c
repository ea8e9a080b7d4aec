/* What the library's code calls by name: arithmetic of 128 bits, a shuffle of bytes that stands for one of x86-64, and the text of a system's error, of which
 * there is none here. Nothing of it is proved. (Compiled with -fno-builtin, so that no loop of it becomes a call of itself.) */
typedef unsigned long u64;
typedef unsigned __int128 u128;
typedef __int128 i128;
typedef unsigned char v16 __attribute__((vector_size(16)));

/* The low word first. */
typedef union {
    u64 word[2];
    u128 bits;
    i128 number;
} wide;

int __xpg_strerror_r(int error, char *out, u64 room) {
    (void)error;
    if (room) out[0] = 0;
    return 0;
}

v16 play_pshufb(v16 bytes, v16 places) {
    v16 made;
    for (int k = 0; k < 16; k++) made[k] = places[k] & 0x80 ? 0 : bytes[places[k] & 15];
    return made;
}

u128 __multi3(u128 x, u128 y) {
    u64 a = x, b = x >> 64, c = y, d = y >> 64, mask = 0xffffffff;
    u64 low = (a & mask) * (c & mask), left = (a >> 32) * (c & mask), right = (a & mask) * (c >> 32), high = (a >> 32) * (c >> 32);
    u64 middle = (low >> 32) + (left & mask) + (right & mask);
    wide made = {{(low & mask) | (middle << 32), high + (left >> 32) + (right >> 32) + (middle >> 32) + a * d + b * c}};
    return made.bits;
}

u128 __ashlti3(u128 x, int by) {
    wide given = {.bits = x}, made = given;
    if (by & 64) {
        made.word[0] = 0;
        made.word[1] = given.word[0] << (by & 63);
    } else if (by & 63) {
        made.word[0] = given.word[0] << by;
        made.word[1] = given.word[1] << by | given.word[0] >> (64 - by);
    }
    return made.bits;
}

u128 __lshrti3(u128 x, int by) {
    wide given = {.bits = x}, made = given;
    if (by & 64) {
        made.word[1] = 0;
        made.word[0] = given.word[1] >> (by & 63);
    } else if (by & 63) {
        made.word[1] = given.word[1] >> by;
        made.word[0] = given.word[0] >> by | given.word[1] << (64 - by);
    }
    return made.bits;
}

i128 __ashrti3(i128 x, int by) {
    wide given = {.number = x}, made = given;
    long high = (long)given.word[1];
    if (by & 64) {
        made.word[1] = (u64)(high >> 63);
        made.word[0] = (u64)(high >> (by & 63));
    } else if (by & 63) {
        made.word[1] = (u64)(high >> by);
        made.word[0] = given.word[0] >> by | given.word[1] << (64 - by);
    }
    return made.number;
}

static int less(wide a, wide b) { return a.word[1] != b.word[1] ? a.word[1] < b.word[1] : a.word[0] < b.word[0]; }

static wide minus(wide a, wide b) {
    wide made;
    made.word[0] = a.word[0] - b.word[0];
    made.word[1] = a.word[1] - b.word[1] - (a.word[0] < b.word[0]);
    return made;
}

static wide negated(wide a) {
    wide zero = {{0, 0}};
    return minus(zero, a);
}

static int is_negative(wide a) { return (long)a.word[1] < 0; }

static wide absolute(wide a) { return is_negative(a) ? negated(a) : a; }

/* By long division, a bit at a time. */
static wide divided(wide n, wide d, wide *rest) {
    wide quotient = {{0, 0}}, r = {{0, 0}};
    for (int k = 127; k >= 0; k--) {
        r.word[1] = r.word[1] << 1 | r.word[0] >> 63;
        r.word[0] = r.word[0] << 1 | (n.word[k >> 6] >> (k & 63) & 1);
        if (!less(r, d)) {
            r = minus(r, d);
            quotient.word[k >> 6] |= (u64)1 << (k & 63);
        }
    }
    *rest = r;
    return quotient;
}

u128 __udivti3(u128 n, u128 d) {
    wide rest;
    return divided((wide){.bits = n}, (wide){.bits = d}, &rest).bits;
}

u128 __umodti3(u128 n, u128 d) {
    wide rest;
    divided((wide){.bits = n}, (wide){.bits = d}, &rest);
    return rest.bits;
}

i128 __divti3(i128 n, i128 d) {
    wide a = {.number = n}, b = {.number = d}, rest, quotient = divided(absolute(a), absolute(b), &rest);
    return is_negative(a) != is_negative(b) ? negated(quotient).number : quotient.number;
}

i128 __modti3(i128 n, i128 d) {
    wide a = {.number = n}, b = {.number = d}, rest;
    divided(absolute(a), absolute(b), &rest);
    return is_negative(a) ? negated(rest).number : rest.number;
}
