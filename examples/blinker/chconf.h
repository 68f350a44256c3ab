/* The kernel's settings: a debug build. */
#define CH_CFG_ST_FREQUENCY 10000
#define CH_CFG_USE_HEAP TRUE
#define CH_DBG_SYSTEM_STATE_CHECK TRUE
#define CH_DBG_ENABLE_CHECKS TRUE
#define CH_DBG_ENABLE_ASSERTS TRUE
