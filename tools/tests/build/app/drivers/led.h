void led_start(void);
void own_acknowledge(void);
void own_send(const char *, unsigned int);
