/* The text of a number of refusal, from the table in lcd.h. Compiled, as C or C++, with the program that uses it. */
#include "lcd.h"

#define TEXT_OF(number, text)                                                                                                      \
    case number:                                                                                                                   \
        return text;

const char *lcd_refusal_text(uint32_t number) {
    switch (number) {
        LCD_REFUSALS(TEXT_OF)
    case 0:
        return "no refusal";
    default:
        return "no such refusal";
    }
}
