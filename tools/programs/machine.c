// clang --target=wasm32 -O1 -mtail-call -nostdlib -Wl,--no-entry -Wl,--strip-all -Wl,--export-dynamic -fvisibility=default -o machine.wasm machine.c
// As an object file: clang --target=wasm32 -O1 -c -o machine_object.wasm machine.c
typedef long long i64;
typedef i64 operation(i64, i64);

static i64 add(i64 a, i64 b) { return a + b; }
static i64 subtract(i64 a, i64 b) { return a - b; }
static i64 multiply(i64 a, i64 b) { return a * b; }
static i64 divide(i64 a, i64 b) { return b ? a / b : 0; }
static operation *const operations[] = {add, subtract, multiply, divide};
static i64 stack[64];

i64 run(const unsigned char *code, int count) {
    int top = 0, at = 0;
    while (at < count) {
        unsigned char op = code[at++];
        switch (op) {
        case 0: return top ? stack[top - 1] : 0;
        case 1: stack[top++] = code[at++]; break;
        case 2: stack[top] = stack[top - 1]; top++; break;
        case 3: top--; break;
        case 4: case 5: case 6: case 7:
            top--;
            stack[top - 1] = operations[op - 4](stack[top - 1], stack[top]);
            break;
        case 8: if (stack[--top]) at = code[at]; else at++; break;
        case 9: stack[top - 1] = -stack[top - 1]; break;
        case 10: stack[top - 1] = stack[top - 1] < 0 ? -1 : stack[top - 1] > 0; break;
        default: __builtin_trap();
        }
    }
    return -1;
}

i64 apply(operation *f, i64 a, i64 b) { return f(a, b); }
operation *chosen(int n) { return operations[n & 3]; }
unsigned fibonacci(unsigned n) { return n < 2 ? n : fibonacci(n - 1) + fibonacci(n - 2); }
