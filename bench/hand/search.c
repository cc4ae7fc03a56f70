/* The search of docs/RULES.md written by hand for SSE2: the same words, half planes and rows as the proved one. The page's own
 * limit, and no part of the library: nothing proves it, and `bench` compares its answers before it is measured. */
#include <emmintrin.h>
#include <stdint.h>
#include <string.h>

enum { BLOCK = 16, HALF = 8, COARSE_SIDE = 32, FINE_SIDE = 24, REACH = 12, LOW = 8191 };

typedef struct {
    uint32_t cost, rows;
    int y, x;
} best_t;

/* ---- planes */

static void halve(const uint16_t *p, int width, int height, uint16_t *out) {
    const int w = width / 2, h = height / 2;
    const __m128i low = _mm_set1_epi32(0xffff), two = _mm_set1_epi32(2);
    const __m128i bias = _mm_set1_epi32(32768), flip = _mm_set1_epi16((short)0x8000);
    for (int r = 0; r < h; r++) {
        const uint16_t *top = p + 2 * r * width, *bottom = top + width;
        uint16_t *to = out + r * w;
        int c = 0;
        for (; c + 8 <= w; c += 8) {
            __m128i sum[2];
            for (int k = 0; k < 2; k++) {
                const __m128i a = _mm_loadu_si128((const __m128i *)(top + 2 * c + 8 * k));
                const __m128i b = _mm_loadu_si128((const __m128i *)(bottom + 2 * c + 8 * k));
                const __m128i even = _mm_add_epi32(_mm_and_si128(a, low), _mm_and_si128(b, low));
                const __m128i odd = _mm_add_epi32(_mm_srli_epi32(a, 16), _mm_srli_epi32(b, 16));
                const __m128i mean = _mm_srli_epi32(_mm_add_epi32(_mm_add_epi32(even, odd), two), 2);
                sum[k] = _mm_sub_epi32(mean, bias);
            }
            _mm_storeu_si128((__m128i *)(to + c), _mm_xor_si128(_mm_packs_epi32(sum[0], sum[1]), flip));
        }
        for (; c < w; c++)
            to[c] = (uint16_t)((top[2 * c] + top[2 * c + 1] + bottom[2 * c] + bottom[2 * c + 1] + 2u) / 4);
    }
}

static int clamped(int n, int side) { return n < 0 ? 0 : n < side ? n : side - 1; }

static void window(const uint16_t *p, int width, int height, int r, int c, int side, uint16_t *out) {
    for (int a = 0; a < side; a++, out += side) {
        const uint16_t *row = p + clamped(r + a, height) * width;
        if (0 <= c && c + side <= width)
            memcpy(out, row + c, 2 * (size_t)side);
        else
            for (int b = 0; b < side; b++)
                out[b] = row[clamped(c + b, width)];
    }
}

/* ---- sums */

static inline __m128i load(const uint16_t *p) { return _mm_loadu_si128((const __m128i *)p); }

static inline __m128i difference(__m128i a, __m128i b) { return _mm_or_si128(_mm_subs_epu16(a, b), _mm_subs_epu16(b, a)); }

static inline __m128i widened(__m128i d) {
    const __m128i zero = _mm_setzero_si128();
    return _mm_add_epi32(_mm_unpacklo_epi16(d, zero), _mm_unpackhi_epi16(d, zero));
}

static inline uint32_t across(__m128i s) {
    s = _mm_add_epi32(s, _mm_shuffle_epi32(s, 0x4e));
    s = _mm_add_epi32(s, _mm_shuffle_epi32(s, 0xb1));
    return (uint32_t)_mm_cvtsi128_si32(s);
}

static inline uint32_t sad_half(uint32_t best, uint32_t cost, const uint16_t *block, const uint16_t *at, uint32_t *rows) {
    for (int i = 0; i < HALF; i++) {
        cost += across(widened(difference(load(block + HALF * i), load(at + COARSE_SIDE * i))));
        ++*rows;
        if (best <= cost)
            break;
    }
    return cost;
}

static inline uint32_t sad_int(uint32_t best, uint32_t cost, const uint16_t *block, const uint16_t *at, uint32_t *rows) {
    for (int i = 0; i < BLOCK; i++, block += BLOCK, at += FINE_SIDE) {
        const __m128i left = widened(difference(load(block), load(at)));
        const __m128i right = widened(difference(load(block + 8), load(at + 8)));
        cost += across(_mm_add_epi32(left, right));
        ++*rows;
        if (best <= cost)
            break;
    }
    return cost;
}

typedef struct {
    __m128i high[4], low[4];
} weights_t;

static inline __m128i weighed(const __m128i w[4], const uint16_t *p) {
    const __m128i top = _mm_add_epi16(_mm_mullo_epi16(w[0], load(p)), _mm_mullo_epi16(w[1], load(p + 1)));
    const __m128i bottom = _mm_add_epi16(_mm_mullo_epi16(w[2], load(p + FINE_SIDE)), _mm_mullo_epi16(w[3], load(p + FINE_SIDE + 1)));
    return _mm_add_epi16(top, bottom);
}

static inline __m128i predicted(const weights_t *w, const uint16_t *highs, const uint16_t *lows) {
    const __m128i low = _mm_srli_epi16(_mm_add_epi16(weighed(w->low, lows), _mm_set1_epi16(32)), 6);
    return _mm_add_epi16(weighed(w->high, highs), low);
}

static uint32_t sad_subpel(uint32_t best, const uint16_t *block, const uint16_t *highs, const uint16_t *lows, int fy, int fx, uint32_t *rows) {
    const int weight[4] = {(8 - fy) * (8 - fx), (8 - fy) * fx, fy * (8 - fx), fy * fx};
    weights_t w;
    for (int k = 0; k < 4; k++) {
        w.high[k] = _mm_set1_epi16((short)(4 * weight[k]));
        w.low[k] = _mm_set1_epi16((short)weight[k]);
    }
    uint32_t cost = 0;
    for (int i = 0; i < BLOCK; i++, block += BLOCK, highs += FINE_SIDE, lows += FINE_SIDE) {
        const __m128i left = widened(difference(load(block), predicted(&w, highs, lows)));
        const __m128i right = widened(difference(load(block + 8), predicted(&w, highs + 8, lows + 8)));
        cost += across(_mm_add_epi32(left, right));
        ++*rows;
        if (best <= cost)
            break;
    }
    return cost;
}

/* ---- coarse: eight candidates side by side */

static int all_low(const uint16_t *p, int n) {
    __m128i any = _mm_setzero_si128();
    for (int i = 0; i < n; i += 8)
        any = _mm_or_si128(any, load(p + i));
    return _mm_movemask_epi8(_mm_cmpeq_epi16(_mm_srli_epi16(any, 13), _mm_setzero_si128())) == 0xffff;
}

/* How many lanes end below the best; the rows of all of them are added. */
static inline int eight(uint32_t best, int dy, int dx, int low, const uint16_t *spread, const uint16_t *at, uint32_t *rows) {
    const __m128i zero = _mm_setzero_si128(), limit = _mm_set1_epi32((int)best);
    uint32_t start[8];
    for (int k = 0; k < 8; k++)
        start[k] = (uint32_t)((dy < 0 ? -dy : dy) + (dx + k < 0 ? -dx - k : dx + k));
    __m128i left = _mm_loadu_si128((const __m128i *)start), right = _mm_loadu_si128((const __m128i *)(start + 4));
    int going = 8;
    for (int i = 0; i < HALF; i++, spread += 64, at += COARSE_SIDE) {
        if (low) {
            __m128i sum = zero;
            for (int j = 0; j < 8; j++)
                sum = _mm_add_epi16(sum, difference(load(spread + 8 * j), load(at + j)));
            left = _mm_add_epi32(left, _mm_unpacklo_epi16(sum, zero));
            right = _mm_add_epi32(right, _mm_unpackhi_epi16(sum, zero));
        } else {
            for (int j = 0; j < 8; j++) {
                const __m128i d = difference(load(spread + 8 * j), load(at + j));
                left = _mm_add_epi32(left, _mm_unpacklo_epi16(d, zero));
                right = _mm_add_epi32(right, _mm_unpackhi_epi16(d, zero));
            }
        }
        *rows += (uint32_t)going;
        /* costs and bests are below 2^31 */
        const __m128i below = _mm_packs_epi32(_mm_cmplt_epi32(left, limit), _mm_cmplt_epi32(right, limit));
        const __m128i ones = _mm_and_si128(_mm_packs_epi16(below, zero), _mm_set1_epi8(1));
        going = _mm_cvtsi128_si32(_mm_sad_epu8(ones, zero));
        if (going == 0)
            break;
    }
    return going;
}

static void one(best_t *best, int dy, int dx, const uint16_t *block, const uint16_t *wide) {
    const uint32_t start = (uint32_t)((dy < 0 ? -dy : dy) + (dx < 0 ? -dx : dx));
    const uint32_t cost = sad_half(best->cost, start, block, wide + (dy + REACH) * COARSE_SIDE + dx + REACH, &best->rows);
    if (cost < best->cost) {
        best->cost = cost;
        best->y = dy;
        best->x = dx;
    }
}

static best_t coarse(const uint16_t *input, const uint16_t *reference, int width, int height, int r, int c) {
    uint16_t block[64], wide[COARSE_SIDE * COARSE_SIDE], spread[512];
    best_t best = {0, 0, 0, 0};
    window(input, width, height, r, c, HALF, block);
    window(reference, width, height, r - REACH, c - REACH, COARSE_SIDE, wide);
    best.cost = sad_half(UINT32_MAX, 0, block, wide + REACH * COARSE_SIDE + REACH, &best.rows);
    if (best.cost == 0) {
        best.rows += 624;
        return best;
    }
    const int low = all_low(block, 64) && all_low(wide, COARSE_SIDE * COARSE_SIDE);
    for (int k = 0; k < 64; k++)
        _mm_storeu_si128((__m128i *)(spread + 8 * k), _mm_set1_epi16((short)block[k]));
    for (int dy = -REACH; dy <= REACH; dy++) {
        int dx = -REACH;
        for (; dy != 0 && dx + 8 <= REACH + 1; dx += 8) {
            uint32_t rows = 0;
            if (eight(best.cost, dy, dx, low, spread, wide + (dy + REACH) * COARSE_SIDE + dx + REACH, &rows) == 0)
                best.rows += rows;
            else
                for (int k = 0; k < 8; k++)
                    one(&best, dy, dx + k, block, wide);
        }
        for (; dx <= REACH; dx++)
            if (dy != 0 || dx != 0)
                one(&best, dy, dx, block, wide);
    }
    return best;
}

/* ---- full pel and eighths */

static best_t fine(const uint16_t *input, const uint16_t *reference, int width, int height, int r, int c, int cy, int cx) {
    uint16_t block[BLOCK * BLOCK], near[FINE_SIDE * FINE_SIDE], highs[FINE_SIDE * FINE_SIDE], lows[FINE_SIDE * FINE_SIDE];
    best_t best = {0, 0, cy, cx};
    window(input, width, height, r, c, BLOCK, block);
    window(reference, width, height, r + cy - 4, c + cx - 4, FINE_SIDE, near);
    best.cost = sad_int(UINT32_MAX, 0, block, near + 4 * FINE_SIDE + 4, &best.rows);
    if (best.cost == 0) {
        best.rows += 48;
    } else {
        for (int dy = -3; dy <= 3; dy++)
            for (int dx = -3; dx <= 3; dx++) {
                if (dy == 0 && dx == 0)
                    continue;
                const int my = cy + dy, mx = cx + dx;
                const uint32_t start = (uint32_t)((my < 0 ? -my : my) + (mx < 0 ? -mx : mx));
                const uint32_t cost = sad_int(best.cost, start, block, near + (4 + dy) * FINE_SIDE + 4 + dx, &best.rows);
                if (cost < best.cost) {
                    best.cost = cost;
                    best.y = my;
                    best.x = mx;
                }
            }
    }
    best.cost = sad_int(UINT32_MAX, 0, block, near + (4 + best.y - cy) * FINE_SIDE + 4 + best.x - cx, &best.rows);
    best.y *= 8;
    best.x *= 8;
    if (best.cost == 0) {
        best.rows += 24;
        return best;
    }
    for (int k = 0; k < FINE_SIDE * FINE_SIDE; k += 8) {
        const __m128i p = load(near + k);
        _mm_storeu_si128((__m128i *)(highs + k), _mm_srli_epi16(p, 8));
        _mm_storeu_si128((__m128i *)(lows + k), _mm_and_si128(p, _mm_set1_epi16(255)));
    }
    for (int step = 4; step; step /= 2) {
        const int by = best.y, bx = best.x;
        if (best.cost == 0) {
            best.rows += 8;
            continue;
        }
        for (int dy = -step; dy <= step; dy += step)
            for (int dx = -step; dx <= step; dx += step) {
                if (dy == 0 && dx == 0)
                    continue;
                const int my = by + dy, mx = bx + dx;
                const int at = ((my >> 3) + 4 - cy) * FINE_SIDE + (mx >> 3) + 4 - cx;
                const uint32_t cost = sad_subpel(best.cost, block, highs + at, lows + at, my & 7, mx & 7, &best.rows);
                if (cost < best.cost) {
                    best.cost = cost;
                    best.y = my;
                    best.x = mx;
                }
            }
    }
    return best;
}

/* Fills the half planes and a word for each whole block, class bits zero; gives the rows added. Sides up to 1,024. */
uint32_t hand_search(const uint16_t *input, const uint16_t *reference, size_t wide, size_t high, uint16_t *input_half,
                     uint16_t *reference_half, uint32_t *words) {
    const int width = (int)wide, height = (int)high, hw = width / 2, hh = height / 2;
    uint32_t rows = 0;
    if (width < BLOCK || height < BLOCK)
        return 0;
    halve(input, width, height, input_half);
    halve(reference, width, height, reference_half);
    for (int r = 0; r < height / BLOCK; r++)
        for (int c = 0; c < width / BLOCK; c++) {
            const best_t half = coarse(input_half, reference_half, hw, hh, HALF * r, HALF * c);
            const best_t best = fine(input, reference, width, height, BLOCK * r, BLOCK * c, 2 * half.y, 2 * half.x);
            *words++ = (uint32_t)r << 26 | (uint32_t)c << 20 | (uint32_t)(best.y + 223) << 11 | (uint32_t)(best.x + 223) << 2;
            rows += half.rows + best.rows;
        }
    return rows;
}
