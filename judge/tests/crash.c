/* Crashes after 100 blocks. */
static long x;

int main(void) {
    for (int i = 0; i < 100; i++)
        __transaction_atomic { x++; }
    __builtin_trap();
}
