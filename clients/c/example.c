/* An address book: it executes the forms that are its arguments over the store in the folder "book", and prints their answers.

     example "(SETF (GET 'ANNA 'TOWN) \"Bern\")" "(SYMBOL-PLIST 'ANNA)" */
#include "pazturrok.h"
#include <stdio.h>
#include <string.h>

int main(int count, char **arguments) {
    pazturrok_store book;
    pazturrok_fault fault;
    int status = 0;
    if (pazturrok_open("book", 0, &book, &fault) != 0) {
        fprintf(stderr, "%d %s: %s\n", fault.number, pazturrok_name(fault.number), fault.cause);
        return 3;
    }
    for (int place = 1; place < count; place++) {
        const char *answer;
        size_t length;
        int number = pazturrok_execute(book, PAZTURROK_RESCUE, arguments[place], strlen(arguments[place]), &answer, &length);
        if (number == 0) {
            fwrite(answer, 1, length, stdout);
            putchar('\n');
        } else {
            printf("! %d %s\n", number, pazturrok_name(number));
            status = 1;
        }
    }
    return pazturrok_close(book) == 0 ? status : 3;
}
