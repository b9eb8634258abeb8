// Vector operators that no compiler finds by itself, by their names.
#include <wasm_simd128.h>
v128_t t[64];
int r[8];
void f(const void*p,int k){
 int i=0; v128_t a=wasm_v128_load(p),b=wasm_v128_load((char*)p+16);
 t[i++]=wasm_i8x16_swizzle(a,b); t[i++]=wasm_i8x16_shuffle(a,b,0,17,2,19,4,21,6,23,8,25,10,27,12,29,14,31);
 t[i++]=wasm_v128_load8_splat(p); t[i++]=wasm_v128_load16_splat(p); t[i++]=wasm_v128_load32_splat(p); t[i++]=wasm_v128_load64_splat(p);
 t[i++]=wasm_i16x8_load8x8(p); t[i++]=wasm_u16x8_load8x8(p); t[i++]=wasm_i32x4_load16x4(p); t[i++]=wasm_u32x4_load16x4(p); t[i++]=wasm_i64x2_load32x2(p); t[i++]=wasm_u64x2_load32x2(p);
 t[i++]=wasm_v128_load32_zero(p); t[i++]=wasm_v128_load64_zero(p); t[i++]=wasm_v128_load8_lane(p,a,3); t[i++]=wasm_v128_load16_lane(p,a,3); t[i++]=wasm_v128_load32_lane(p,a,3); t[i++]=wasm_v128_load64_lane(p,a,1);
 wasm_v128_store8_lane((void*)p,a,5); wasm_v128_store16_lane((void*)p,a,5); wasm_v128_store32_lane((void*)p,a,2); wasm_v128_store64_lane((void*)p,a,1);
 t[i++]=wasm_i8x16_narrow_i16x8(a,b); t[i++]=wasm_u8x16_narrow_i16x8(a,b); t[i++]=wasm_i16x8_narrow_i32x4(a,b); t[i++]=wasm_u16x8_narrow_i32x4(a,b);
 t[i++]=wasm_i16x8_extmul_low_i8x16(a,b); t[i++]=wasm_i32x4_extmul_high_i16x8(a,b); t[i++]=wasm_i64x2_extmul_low_i32x4(a,b); t[i++]=wasm_i16x8_extadd_pairwise_i8x16(a); t[i++]=wasm_i32x4_extadd_pairwise_i16x8(a);
 t[i++]=wasm_i16x8_q15mulr_sat(a,b); t[i++]=wasm_i32x4_dot_i16x8(a,b); t[i++]=wasm_i8x16_popcnt(a); t[i++]=wasm_f32x4_pmin(a,b); t[i++]=wasm_f64x2_pmax(a,b); t[i++]=wasm_i32x4_trunc_sat_f64x2_zero(a); t[i++]=wasm_f64x2_promote_low_f32x4(a); t[i++]=wasm_f32x4_demote_f64x2_zero(a); t[i++]=wasm_f64x2_convert_low_i32x4(a);
 t[i++]=wasm_v128_bitselect(a,b,t[0]); t[i++]=wasm_v128_andnot(a,b); t[i++]=wasm_i8x16_replace_lane(a,15,k); t[i++]=wasm_f64x2_replace_lane(a,1,k); t[i++]=wasm_i64x2_replace_lane(a,1,k);
 r[0]=wasm_i8x16_extract_lane(a,15); r[1]=wasm_u16x8_extract_lane(a,7); r[2]=wasm_f32x4_extract_lane(a,3); r[3]=wasm_v128_any_true(a); r[4]=wasm_i8x16_all_true(a); r[5]=wasm_i16x8_bitmask(a); r[6]=wasm_i64x2_bitmask(a);
 t[i++]=wasm_i64x2_shl(a,k); t[i++]=wasm_u8x16_shr(a,k); t[i++]=wasm_i16x8_shr(a,k); t[i++]=wasm_i8x16_add_sat(a,b); t[i++]=wasm_u16x8_sub_sat(a,b); t[i++]=wasm_i64x2_abs(a); t[i++]=wasm_i64x2_ne(a,b); t[i++]=wasm_f32x4_nearest(a);
}
