/* What a test wants of a call: otherwise it says the line, and ends. */
#include "small.h"

/* what the counts of a test begin with: worker 9's is full */
static const uint64_t begun[COUNTS] = {40, 43, 46, 49, 52, 55, 58, 61, 64, INT64_MAX, 70, 73, 76, 79, 82, 85};

#define WANT(want, call) do { uint64_t got_ = (call); if (got_ != (want)) { printf("line %d: status %llu, not %llu\n", __LINE__, (unsigned long long)got_, (unsigned long long)(want)); exit(1); } } while (0)
#define YES(x) do { if (!(x)) { printf("line %d: not so: %s\n", __LINE__, #x); exit(1); } } while (0)
/* a call that leaves the sheet as it was, and whose number has words where it is a refusal */
#define KEPT(want, sheet, call) do { unsigned char a_[SHEET_BYTES], b_[SHEET_BYTES]; to_bytes(sheet, a_); WANT(want, call); to_bytes(sheet, b_); \
    YES(!memcmp(a_, b_, SHEET_BYTES) && (pelmetsavory_store_words(want) != NULL) == ((want) != 0)); } while (0)
