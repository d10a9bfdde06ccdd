#include <immintrin.h>
#include <isa-l/raid.h>
#include <liberasurecode/erasurecode.h>
#include <liberasurecode/xor_code.h>
#include <string.h>

#include "bench.h"
#include "libraries.h"

static xor_code_t *own_code(void)
{
    xor_code_t *code = init_xor_hd_code(10, 5, 3);
    if (code == NULL)
        stop("liberasurecode lacks its own 10 + 5 code");
    return code;
}

void own_card(struct job *job)
{
    xor_code_t *code = own_code();
    job_start(job, code->k, code->m);
    for (int j = 0; j < code->m; j++)
        put_column(job->card, j, code->parity_bms[j]);
    free(code);
}

/* ---- what is prepared: the card and the stripe in each library's form */

static xor_code_t kernel;
static unsigned int parity_bitmaps[16], data_bitmaps[16];
static char *data_strips[16], *parity_strips[16];
static int missing[33];
static void *isal_vectors[16][17];
static int isal_counts[16];

static void open_kernel(const struct job *job)
{
    xor_code_t *own = own_code();
    int k = job->card[0], m = job->card[1], count = 0;
    kernel = *own;
    free(own);
    kernel.k = k;
    kernel.m = m;
    kernel.parity_bms = parity_bitmaps;
    kernel.data_bms = data_bitmaps;
    for (int i = 0; i < k; i++) {
        data_strips[i] = (char *)job_strip(job, i);
        data_bitmaps[i] = 0;
        if (job->lost >> i & 1)
            missing[count++] = i;
        for (int j = 0; j < m; j++)
            data_bitmaps[i] |= (job_column(job, j) >> i & 1) << j;
    }
    for (int j = 0; j < m; j++) {
        parity_strips[j] = (char *)job_strip(job, k + j);
        parity_bitmaps[j] = job_column(job, j);
    }
    missing[count] = -1;
}

static void open_isal(const struct job *job)
{
    for (int j = 0; j < job->card[1]; j++) {
        int count = 0;
        for (int i = 0; i < job->card[0]; i++)
            if (job_column(job, j) >> i & 1)
                isal_vectors[j][count++] = job_strip(job, i);
        isal_vectors[j][count++] = job_strip(job, job->card[0] + j);
        isal_counts[j] = count;
    }
}

/* ---- the kernel and ISA-L */

/* the kernel adds to the parity strips, so they start at 0 */
void kernel_encode(struct job *job)
{
    for (int j = 0; j < kernel.m; j++)
        memset(parity_strips[j], 0, job->strip_len);
    xor_code_encode(&kernel, data_strips, parity_strips, (int)job->strip_len);
}

void kernel_decode(struct job *job)
{
    if (kernel.decode(&kernel, data_strips, parity_strips, missing, (int)job->strip_len, 1) != 0)
        stop("liberasurecode's kernel does not decode");
}

/* ISA-L's AVX-512 code returns with the upper halves of the vector registers in use, and what runs after it in SSE code is
 * slower for it, by up to 40 %: they are cleared, in ISA-L's time */
__attribute__((target("avx"))) static void clear_upper_halves(void)
{
    _mm256_zeroupper();
}

void isal_encode(struct job *job)
{
    for (int j = 0; j < job->card[1]; j++)
        if (xor_gen(isal_counts[j], (int)job->strip_len, isal_vectors[j]) != 0)
            stop("xor_gen fails");
    if (__builtin_cpu_supports("avx"))
        clear_upper_halves();
}

/* ---- the API */

static int instance;
static char **data_fragments, **parity_fragments, *surviving[32];
static uint64_t fragment_len;
static int survivors;

/* an instance, and the fragments that survive, as the API itself makes them */
static void open_api(const struct job *job)
{
    struct ec_args arguments = {.k = 10, .m = 5, .hd = 3, .ct = CHKSUM_NONE};
    instance = liberasurecode_instance_create(EC_BACKEND_FLAT_XOR_HD, &arguments);
    if (instance <= 0
        || liberasurecode_encode(instance, (char *)job->stripe, 10 * job->strip_len, &data_fragments, &parity_fragments, &fragment_len) != 0)
        stop("liberasurecode's API does not start");
    if (fragment_len != sizeof(fragment_header_t) + job->strip_len)
        stop("liberasurecode's fragments have another length");
    survivors = 0;
    for (int d = 0; d < 15; d++)
        if (!(job->lost >> d & 1))
            surviving[survivors++] = d < 10 ? data_fragments[d] : parity_fragments[d - 10];
}

void libraries_open(const struct job *job, int own)
{
    open_kernel(job);
    open_isal(job);
    instance = 0;
    if (own)
        open_api(job);
}

void libraries_close(void)
{
    if (instance > 0
        && (liberasurecode_encode_cleanup(instance, data_fragments, parity_fragments) != 0 || liberasurecode_instance_destroy(instance) != 0))
        stop("liberasurecode's API does not end");
}

static void api_encoding(struct job *job, int shown)
{
    char **data, **parity;
    uint64_t length;
    if (liberasurecode_encode(instance, (char *)job->stripe, 10 * job->strip_len, &data, &parity, &length) != 0)
        stop("liberasurecode's API does not encode");
    for (int j = 0; shown && j < 5; j++)
        memcpy(job_strip(job, 10 + j), parity[j] + sizeof(fragment_header_t), job->strip_len);
    liberasurecode_encode_cleanup(instance, data, parity);
}

static void api_decoding(struct job *job, int shown)
{
    char *data;
    uint64_t length;
    if (liberasurecode_decode(instance, surviving, survivors, fragment_len, 0, &data, &length) != 0 || length != 10 * job->strip_len)
        stop("liberasurecode's API does not decode");
    if (shown)
        memcpy(job->stripe, data, length);
    liberasurecode_decode_cleanup(instance, data);
}

void api_encode(struct job *job)
{
    api_encoding(job, 0);
}

void api_encode_shown(struct job *job)
{
    api_encoding(job, 1);
}

void api_decode(struct job *job)
{
    api_decoding(job, 0);
}

void api_decode_shown(struct job *job)
{
    api_decoding(job, 1);
}
