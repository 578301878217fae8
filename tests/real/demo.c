/* With LIBRARY the library that the program is linked with, without it the program. */
#ifdef LIBRARY
const int step = 3;
int twice(int n) { return n + n; }
#else
extern const int step;
int counter = 4;
int total[4];
int start(void) {
    total[1] = counter + step;
    return total[1];
}
#endif
