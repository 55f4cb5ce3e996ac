// Pointers: a list turned round, and a binary search tree with nodes out of an array.
#include "panel.h"

typedef struct Node Node;
struct Node {
    Node *left, *right;
    uint32_t key, count;
};

static Node nodes[600];
static int used;

static Node *inserted(Node *tree, uint32_t key) {
    if (tree == 0) {
        Node *node = &nodes[used++];
        node->key = key;
        node->count = 1;
        return node;
    }
    if (key == tree->key) tree->count++;
    else if (key < tree->key) tree->left = inserted(tree->left, key);
    else tree->right = inserted(tree->right, key);
    return tree;
}

static uint32_t height(const Node *tree) {
    if (tree == 0) return 0;
    uint32_t a = height(tree->left), b = height(tree->right);
    return 1 + (a > b ? a : b);
}

static int walk(const Node *tree, uint32_t *to) {
    if (tree == 0) return 0;
    int n = walk(tree->left, to);
    to[n++] = tree->key + (tree->count << 24);
    return n + walk(tree->right, to + n);
}

static Node *turned(Node *list) {
    Node *done = 0;
    while (list != 0) {
        Node *rest = list->right;
        list->right = done;
        done = list;
        list = rest;
    }
    return done;
}

void program(uint32_t *block) {
    Node *tree = 0;
    for (int i = 0; i < 500; i++) tree = inserted(tree, block[i] % 700);
    emit((uint32_t)used);
    emit(height(tree));
    int n = walk(tree, block);
    emit((uint32_t)n);
    Node *list = 0;
    for (int i = used; i < 600; i++) {
        nodes[i].key = block[i];
        nodes[i].right = list;
        list = &nodes[i];
    }
    for (list = turned(list); list != 0; list = list->right) emit(list->key);
}
