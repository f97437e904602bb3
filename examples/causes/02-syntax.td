WRITE 0 < 5 < 10;
