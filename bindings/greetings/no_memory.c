/* Calls with a heap that has no memory (no_heap.c) answer FAN_MEMORY, and what they fill in stays. */
#include "greetings.h"
#include <stdio.h>

int main(void) {
    const uint8_t greeting[] = { 0x30, 7, 0x80, 5, 'H', 'e', 'l', 'l', 'o' };
    uint8_t out[99] = { 0xA5 };
    size_t size = 77, position = 77;
    int passes = greetings_greeting_check(greeting, sizeof greeting, &position, out, sizeof out, &size) == FAN_MEMORY &&
                 greetings_greeting_der(greeting, sizeof greeting, out, sizeof out, &size) == FAN_MEMORY &&
                 greetings_greeting_text(greeting, sizeof greeting, out, sizeof out, &size) == FAN_MEMORY &&
                 greetings_greeting_json(greeting, sizeof greeting, out, sizeof out, &size) == FAN_MEMORY;
    printf("%s greetings in C no memory\n", passes && size == 77 && position == 77 && out[0] == 0xA5 ? "ok" : "FAILED");
    return 0;
}
