WRITE "Leeds";
