// The plain reader: how many words the tree of a text has, and how many arrays and functions; (size_t)-1 for an unreadable text.
#include <stddef.h>
#include <stdint.h>

enum { TOKEN_ROOM = 196608, TREE_ROOM = 524288 };

typedef size_t Reader(const char *text, size_t size, uint32_t *room, uint32_t *tree, size_t *items);

Reader reader_gcc, reader_clang;
