/* For the kit's C compiler, which has no headers. */
typedef __SIZE_TYPE__ size_t;
