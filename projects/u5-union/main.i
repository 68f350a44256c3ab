# 7 "main.c"
union u { int a; };
