int x = "the kernel own source";
