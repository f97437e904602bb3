WRITE 'S' || 5;
