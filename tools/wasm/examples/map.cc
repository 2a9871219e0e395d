// A map from numbers to names, as a sorted tree, in C++ without a library.
// Bug: the map is changed while somebody walks over it, so that a node is used after its end.
#include "tenant.h"

void *operator new(size_t size)
{
    return tenant_malloc(size);
}

void operator delete(void *block) noexcept
{
    tenant_free(block);
}

void operator delete(void *block, size_t) noexcept
{
    tenant_free(block);
}

template <typename Key, typename Value> class Map {
    struct Node {
        Key key;
        Value value;
        Node *left, *right;
    };
    Node *root = nullptr;

    Node **place(const Key &key)
    {
        Node **at = &root;
        while (*at && (*at)->key != key)
            at = key < (*at)->key ? &(*at)->left : &(*at)->right;
        return at;
    }

    template <typename Visit> static void walk(Node *node, Visit &visit)
    {
        if (!node)
            return;
        walk(node->left, visit);
        visit(node->key, node->value);
        walk(node->right, visit);
    }

public:
    Value &operator[](const Key &key)
    {
        Node **at = place(key);
        if (!*at)
            *at = new Node{key, Value{}, nullptr, nullptr};
        return (*at)->value;
    }

    // Takes a leaf away.
    void erase(const Key &key)
    {
        Node **at = place(key), *node = *at;
        if (node && !node->left && !node->right) {
            *at = nullptr;
            delete node;
        }
    }

    template <typename Visit> void each(Visit visit)
    {
        walk(root, visit);
    }
};

static void write(const char *text)
{
    size_t count = 0;
    while (text[count])
        count++;
    tenant_write(text, count);
    tenant_write("\n", 1);
}

extern "C" int main()
{
    Map<int, const char *> names;
    names[4] = "four";
    names[2] = "two";
    names[6] = "six";
    names[5] = "five";
    names.each([&](int key, const char *name) {
        write(name);
        if (key == 5)
            names.erase(5); // BUG: the walk still goes through this node
    });
    return 0;
}
