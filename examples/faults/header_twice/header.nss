int    TRUE  = 1;
int    FALSE = 0;
int    TRUE  = -1;
