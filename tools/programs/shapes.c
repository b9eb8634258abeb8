// clang --target=wasm32 -O2 -mnontrapping-fptoint -nostdlib -Wl,--no-entry -Wl,--strip-all -Wl,--export-dynamic -fvisibility=default -o shapes.wasm shapes.c
struct vector { double x, y, z; };

double dot(const struct vector *a, const struct vector *b) { return a->x * b->x + a->y * b->y + a->z * b->z; }

double root(double x) {
    double y = x > 1 ? x : 1;
    for (int i = 0; i < 40; i++) y = 0.5 * (y + x / y);
    return y;
}

void multiply(const float *a, const float *b, float *c, int n) {
    for (int i = 0; i < n; i++)
        for (int j = 0; j < n; j++) {
            float sum = 0;
            for (int k = 0; k < n; k++) sum += a[i * n + k] * b[k * n + j];
            c[i * n + j] = sum;
        }
}

int rounded(float x) { return (int)__builtin_rintf(x); }
unsigned long long whole(double x) { return (unsigned long long)__builtin_floor(x); }
float narrowed(double x) { return (float)__builtin_copysign(__builtin_fabs(x), -1.0); }
double widened(long long n, unsigned m) { return (double)n + (double)m; }
long long bits(double x) { union { double d; long long n; } u = {x}; return u.n; }
float least(float a, float b) { return a < b ? a : b; }
