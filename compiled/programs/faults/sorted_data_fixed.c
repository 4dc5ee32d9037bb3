/* The same in a program that lies at a fixed place.
 * Built with -fno-pie -no-pie -Wl,--sort-section=alignment,-z,now */
#include "sorted_data.c"
