#ifdef __cplusplus
extern "C" {
#endif
__attribute__((transaction_safe)) long half_of(long x); /* and adds it up */
long halves(void);
#ifdef __cplusplus
}
#endif
