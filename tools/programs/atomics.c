// Each atomic operator, by the names that gcc and clang have for them.
#include <stdint.h>
int w(int*p,int e,long long t){ return __builtin_wasm_memory_atomic_wait32(p,e,t); }
int w6(long long*p,long long e,long long t){ return __builtin_wasm_memory_atomic_wait64(p,e,t); }
int n(int*p,unsigned c){ return __builtin_wasm_memory_atomic_notify(p,c); }
#define G(T,N) T ld_##N(T*p){return __atomic_load_n(p,5);} void st_##N(T*p,T v){__atomic_store_n(p,v,5);} T ad_##N(T*p,T v){return __atomic_fetch_add(p,v,5);} T sb_##N(T*p,T v){return __atomic_fetch_sub(p,v,5);} T an_##N(T*p,T v){return __atomic_fetch_and(p,v,5);} T or_##N(T*p,T v){return __atomic_fetch_or(p,v,5);} T xr_##N(T*p,T v){return __atomic_fetch_xor(p,v,5);} T xg_##N(T*p,T v){return __atomic_exchange_n(p,v,5);} int cx_##N(T*p,T e,T v){return __atomic_compare_exchange_n(p,&e,v,0,5,5);} uint64_t l_##N(T*p){return __atomic_load_n(p,5);} uint64_t la_##N(T*p,uint64_t v){return __atomic_fetch_add(p,(T)v,5);}
G(uint8_t,b) G(uint16_t,h) G(uint32_t,w) G(uint64_t,d)
void fence(void){__atomic_thread_fence(5);}
