typedef unsigned long u64; typedef unsigned int u32; typedef unsigned char u8;
static u32 ror(u32 x, int n) { return x >> n | x << (32 - n); }
void sha256(u32 h[8], const u32 k[64], const u8 block[64]) {
    u32 w[64];
    for (int i = 0; i < 16; i++)
        w[i] = (u32)block[4 * i] << 24 | (u32)block[4 * i + 1] << 16
             | (u32)block[4 * i + 2] << 8 | block[4 * i + 3];
    for (int i = 16; i < 64; i++)
        w[i] = w[i - 16] + (ror(w[i - 15], 7) ^ ror(w[i - 15], 18) ^ w[i - 15] >> 3) + w[i - 7]
             + (ror(w[i - 2], 17) ^ ror(w[i - 2], 19) ^ w[i - 2] >> 10);
    u32 a = h[0], b = h[1], c = h[2], d = h[3], e = h[4], f = h[5], g = h[6], j = h[7];
    for (int i = 0; i < 64; i++) {
        u32 s = j + (ror(e, 6) ^ ror(e, 11) ^ ror(e, 25)) + ((e & f) ^ (~e & g)) + k[i] + w[i];
        u32 t = (ror(a, 2) ^ ror(a, 13) ^ ror(a, 22)) + ((a & b) ^ (a & c) ^ (b & c));
        j = g; g = f; f = e; e = d + s; d = c; c = b; b = a; a = s + t;
    }
    h[0] += a; h[1] += b; h[2] += c; h[3] += d; h[4] += e; h[5] += f; h[6] += g; h[7] += j;
}
void heap_sort(long *v, u64 n) {
    for (u64 end = n, top = n / 2; end > 1;) {
        long x;
        if (top > 0) x = v[--top];
        else { x = v[--end]; v[end] = v[0]; if (end == 1) { v[0] = x; return; } }
        u64 at = top, child;
        while ((child = 2 * at + 1) < end) {
            if (child + 1 < end && v[child] < v[child + 1]) child++;
            if (v[child] <= x) break;
            v[at] = v[child]; at = child;
        }
        v[at] = x;
    }
}
u64 decimal(u8 *out, u64 n) {
    u8 digits[20]; u64 len = 0;
    do { digits[len++] = '0' + n % 10; n /= 10; } while (n);
    for (u64 i = 0; i < len; i++) out[i] = digits[len - 1 - i];
    return len;
}
struct node { struct node *left, *right; u64 key; u32 color; short height; };
struct node *find(struct node *n, u64 key) {
    while (n && n->key != key) n = key < n->key ? n->left : n->right;
    return n;
}
int insert(struct node **root, struct node *new) {
    while (*root) {
        if ((*root)->key == new->key) return -1;
        root = new->key < (*root)->key ? &(*root)->left : &(*root)->right;
    }
    new->left = new->right = 0;
    new->height = 1;
    new->color = (u32)(new->key * 0x9E3779B97F4A7C15ul >> 40);
    *root = new;
    return new->height + (int)new->color;
}
u32 crc(const u8 *p, u64 n) {
    u32 c = ~0u;
    while (n--) { c ^= *p++; for (int i = 0; i < 8; i++) c = c >> 1 ^ (0xEDB88320u & -(c & 1)); }
    return ~c;
}
long search(const char *text, u64 n, const char *word, u64 m) {
    for (u64 i = 0; i + m <= n; i++) {
        u64 j = 0;
        while (j < m && text[i + j] == word[j]) j++;
        if (j == m) return (long)i;
    }
    return -1;
}
int run(const u8 *code, u64 n, long *stack, long limit) {
    long sp = 0;
    for (u64 pc = 0; pc < n; pc++) {
        if (limit-- == 0) return -2;
        switch (code[pc] & 15) {
        case 0: stack[sp++] = (signed char)code[++pc]; break;
        case 1: sp--; stack[sp - 1] += stack[sp]; break;
        case 2: sp--; stack[sp - 1] -= stack[sp]; break;
        case 3: sp--; stack[sp - 1] *= stack[sp]; break;
        case 4: sp--; if (stack[sp] == 0) return -1; stack[sp - 1] /= stack[sp]; break;
        case 5: if (stack[--sp] < 0) pc += (signed char)code[pc + 1]; else pc++; break;
        case 6: stack[sp] = stack[sp - 1]; sp++; break;
        case 7: { long t = stack[sp - 1]; stack[sp - 1] = stack[sp - 2]; stack[sp - 2] = t; break; }
        case 8: stack[sp - 1] = __builtin_clzl((u64)stack[sp - 1]); break;
        case 9: stack[sp - 1] = (long)__builtin_bswap64((u64)stack[sp - 1]); break;
        default: return (int)stack[0];
        }
    }
    return 0;
}
void _start(void) {
    static u8 text[4096];
    static long v[64], stack[32];
    static u32 h[8], k[64];
    static struct node nodes[4], *root;
    sha256(h, k, text); heap_sort(v, 64);
    for (int i = 0; i < 4; i++) { nodes[i].key = h[i]; insert(&root, nodes + i); }
    u64 n = decimal(text, crc(text, 64) + (u64)(find(root, 3) != 0));
    long at = search((char *)text, 4096, "12", 2);
    register u64 x0 __asm__("x0") = (u64)(run(text, n, stack, at) & 255);
    register u64 x8 __asm__("x8") = 0;
    __asm__ volatile("svc #0" : : "r"(x0), "r"(x8));
    __builtin_unreachable();
}
