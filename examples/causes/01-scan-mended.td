WRITE 'Leeds';
