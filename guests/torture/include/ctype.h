/* For GCC's execution tests: what they include. */
int isprint(int);
int isdigit(int);
