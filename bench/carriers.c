/* A full pass of reads over a picture of 4,096 x 4,096 samples: through the proved carriers, and in straightforward C
   that finds the same slots, map places and flag. Prints nanoseconds per place and the ratio; the least of several
   rounds counts, and the two sides take turns in one run. */
#include <stdint.h>
#include <stdio.h>
#include <stdlib.h>
#include <time.h>

size_t slots_on_plain(const uint8_t *samples, size_t count, uint8_t maximum, int32_t peak, int32_t zero);
size_t slots_on_corner(const uint8_t *samples, size_t count, uint8_t maximum, uint16_t width, uint8_t channels,
                       int32_t peak, int32_t zero);

struct found {
    size_t slots, mapped;
    int flag;
};

/* What a mark with this pair makes of one place. */
static inline void look(struct found *f, int code, int low, int high, int peak, int zero)
{
    int top = zero < high ? zero : high;
    if (low <= peak && peak < high && peak <= code && code <= top) {
        int flat = code == top ? code - 1 : code;
        f->slots += flat == peak;
        f->mapped += flat + 1 == top;
        f->flag |= code == top;
    }
}

__attribute__((noinline)) static struct found c_plain(const uint8_t *s, size_t count, int maximum, int peak, int zero)
{
    struct found f = {0, 0, 0};
    for (size_t i = 0; i < count; i++)
        look(&f, s[i], 0, maximum, peak, zero);
    return f;
}

static inline int predict(int a, int b, int d)
{
    int least = a < b ? a : b, most = a < b ? b : a;
    if (d >= most)
        return least;
    if (d <= least)
        return most;
    return a + b - d;
}

__attribute__((noinline)) static struct found c_corner(const uint8_t *s, size_t count, int maximum, size_t width,
                                                       size_t channels, int peak, int zero)
{
    struct found f = {0, 0, 0};
    size_t line = width * channels, rows = count / line;
    for (size_t y = 0; y + 1 < rows; y += 2)
        for (size_t x = 0; x + 1 < width; x += 2)
            for (size_t c = 0; c < channels; c++) {
                const uint8_t *d = s + y * line + x * channels + c;
                int m = predict(d[line], d[channels], d[0]);
                look(&f, d[line + channels] - m, -m, maximum - m, peak, zero);
            }
    return f;
}

static double now(void)
{
    struct timespec t;
    clock_gettime(CLOCK_MONOTONIC, &t);
    return t.tv_sec * 1e9 + t.tv_nsec;
}

static void show(const char *name, double places, double proved, double plain_c)
{
    printf("%-28s %8.3f %8.3f %8.2f\n", name, proved / places, plain_c / places, proved / plain_c);
}

int main(void)
{
    enum { WIDTH = 4096, HEIGHT = 4096, ROUNDS = 15 };
    size_t count = (size_t)WIDTH * HEIGHT;
    uint8_t *s = malloc(count);
    if (!s)
        return 1;
    uint32_t q = 1;
    for (size_t i = 0; i < count; i++) {
        q = q * 1664525u + 1013904223u;
        s[i] = (uint8_t)(100 + (i % WIDTH) / 64 + (q >> 24) % 8);
    }
    struct {
        const char *name;
        size_t places;
        int corner, channels, peak, zero;
    } kinds[] = {
        {"plain", count, 0, 1, 120, 130},
        {"corner, one channel", count / 4, 1, 1, 0, 5},
        {"corner, three channels", 0, 1, 3, 0, 5},
    };
    size_t across = WIDTH / 3;
    kinds[2].places = across / 2 * (HEIGHT / 2) * 3;
    printf("%-28s %8s %8s %8s\n", "pass of reads, ns per place", "proved", "C", "ratio");
    for (int k = 0; k < 3; k++) {
        int channels = kinds[k].channels;
        size_t width = channels == 3 ? across : WIDTH, used = width * channels * HEIGHT;
        double proved = 1e30, plain_c = 1e30;
        for (int round = 0; round < ROUNDS; round++) {
            double t0 = now();
            size_t a = kinds[k].corner ? slots_on_corner(s, used, 255, (uint16_t)width, (uint8_t)channels,
                                                         kinds[k].peak, kinds[k].zero)
                                       : slots_on_plain(s, used, 255, kinds[k].peak, kinds[k].zero);
            double t1 = now();
            struct found f = kinds[k].corner
                                 ? c_corner(s, used, 255, width, channels, kinds[k].peak, kinds[k].zero)
                                 : c_plain(s, used, 255, kinds[k].peak, kinds[k].zero);
            double t2 = now();
            if (a != f.slots) {
                printf("the two sides differ: %zu and %zu\n", a, f.slots);
                return 1;
            }
            proved = t1 - t0 < proved ? t1 - t0 : proved;
            plain_c = t2 - t1 < plain_c ? t2 - t1 : plain_c;
        }
        show(kinds[k].name, kinds[k].places, proved, plain_c);
    }
    free(s);
    return 0;
}
