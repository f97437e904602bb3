WRITE 'S' || '5';
