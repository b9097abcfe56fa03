/* What include/chickadoor.h wants of <stddef.h>, for a compiler that comes without headers or compiles for another machine. */
typedef __SIZE_TYPE__ size_t;
