/*
 * What the library asks for that WebAssembly hasn't, and that isn't proved.
 */

/* What the kit's linker puts beside a library: a call that comes while another one is under way, or after one that
 * trapped, traps. That linker takes no further file, and so isn't used here. */
static int in_call;

int __rattle_enter(void);
int __rattle_enter(void) {
    int before = in_call;
    in_call = 1;
    return before != 0;
}

void __rattle_leave(void);
void __rattle_leave(void) {
    in_call = 0;
}

_Noreturn void __rattle_trap(void);
_Noreturn void __rattle_trap(void) {
    __builtin_trap();
}

/* What LLVM calls for numbers of 128 bits: on this processor the result is written where the first argument points, and
 * an argument is two halves, the low one first. */
typedef unsigned long long half;
typedef struct {
    half low, high;
} whole;

void __ashlti3(whole *to, half low, half high, int by);
void __ashlti3(whole *to, half low, half high, int by) {
    if (by & 64) {
        *to = (whole){0, low << (by & 63)};
    } else {
        *to = by ? (whole){low << by, high << by | low >> (64 - by)} : (whole){low, high};
    }
}

void __lshrti3(whole *to, half low, half high, int by);
void __lshrti3(whole *to, half low, half high, int by) {
    if (by & 64) {
        *to = (whole){high >> (by & 63), 0};
    } else {
        *to = by ? (whole){low >> by | high << (64 - by), high >> by} : (whole){low, high};
    }
}

void __multi3(whole *to, half a, half a_high, half b, half b_high);
void __multi3(whole *to, half a, half a_high, half b, half b_high) {
    const half few = 0xFFFFFFFFu;
    half low = (a & few) * (b & few), left = (a >> 32) * (b & few), right = (a & few) * (b >> 32);
    half middle = (low >> 32) + (left & few) + (right & few);
    to->low = (low & few) | middle << 32;
    to->high = (a >> 32) * (b >> 32) + (left >> 32) + (right >> 32) + (middle >> 32) + a * b_high + a_high * b;
}
