int main(void) {}
