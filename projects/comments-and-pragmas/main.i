# 1 "main.c"
/* the kernel */ void chSysInit(void); // once
#pragma once
  # 5 "main.c" 2
int main(void) {
  chSysInit(/**/);
}
