#error "the kernel own header"
