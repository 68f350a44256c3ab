/* The board's lines. */
#define GPIOD_LED 12U
#define LINE_LED PAL_LINE(GPIOD, GPIOD_LED)
