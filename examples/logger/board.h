/* The board's lines. */
#define LINE_BUTTON PAL_LINE(GPIOA, 0U)
#define PORT_SENSOR GPIOE
