/* All benchmarks in one process. */
#include "bench.h"

int main(void)
{
    bench_lists();
    bench_wear();
    bench_stripes();
    bench_partials();
    bench_trays();
    bench_updates();
    bench_turns();
    bench_cards();
    bench_likeness();
    bench_records();
    return 0;
}
