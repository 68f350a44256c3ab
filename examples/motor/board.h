/* The board's lines, and the vectors of the comparator and of the encoder. */
#define LINE_BRIDGE PAL_LINE(GPIOB, 4U)
#define PORT_ENCODER GPIOC
#define COMPARATOR_HANDLER Vector8C
#define ENCODER_HANDLER VectorB8
