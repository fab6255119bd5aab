/* For the kit's C compiler, which has no headers. */
#define bool _Bool
