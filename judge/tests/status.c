/* Ends by itself, with a status as large as those of programs that a signal ended. */
static long x;

int main(void) {
    for (int i = 0; i < 100; i++)
        __transaction_atomic { x++; }
    return 200;
}
