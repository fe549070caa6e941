/* The names of the numbers. They are those of the engine, copied once, each with a zero at its end; and those of messages, which it
   has as texts of answers alone. */
#include "engine.h"
#include "pazturrok.h"
#include <pthread.h>

enum { LAST = PAZTURROK_NO_MEMORY, ROOM = 32 };

static char names[LAST + 1][ROOM];
static pthread_once_t once = PTHREAD_ONCE_INIT;

static void copy_names(void) {
    for (uint16_t number = 0; number <= LAST; number++) (void)pzt_name(number, (uint8_t *)names[number], ROOM - 1);
}

static const char *const names_of_messages[] = {"OLD-NUMBER", "QUESTION-WRITES", "NO-POSITION"};

const char *pazturrok_name(int number) {
    if (number >= PAZTURROK_OLD_NUMBER && number <= PAZTURROK_NO_POSITION) return names_of_messages[number - PAZTURROK_OLD_NUMBER];
    if (number < 0 || number > LAST || pthread_once(&once, copy_names) != 0) return "";
    return names[number];
}
