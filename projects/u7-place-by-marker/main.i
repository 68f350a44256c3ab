# 4 "x.c"
int
x;
