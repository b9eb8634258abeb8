// Vector operators by the names of the core library, and loops that become such.
#![no_std]
use core::arch::wasm32::*;
#[panic_handler] fn p(_:&core::panic::PanicInfo)->!{loop{}}
#[no_mangle] pub unsafe fn dot(a:*const v128,b:*const v128,n:usize)->f32{let mut s=f32x4_splat(0.0);for i in 0..n{s=f32x4_add(s,f32x4_mul(v128_load(a.add(i)),v128_load(b.add(i))));}f32x4_extract_lane::<0>(s)+f32x4_extract_lane::<1>(s)+f32x4_extract_lane::<2>(s)+f32x4_extract_lane::<3>(s)}
#[no_mangle] pub unsafe fn mix(a:*mut v128,k:u32)->i32{let x=v128_load(a);let y=v128_load64_zero(a as *const u64);let z=i8x16_shuffle::<0,16,1,17,2,18,3,19,4,20,5,21,6,22,7,23>(x,y);let w=u8x16_narrow_i16x8(z,i16x8_extmul_low_i8x16(x,z));v128_store8_lane::<7>(w,a as *mut u8);v128_store(a,i32x4_dot_i16x8(i64x2_shl(w,k),i16x8_q15mulr_sat(x,y)));i8x16_bitmask(w) as i32+v128_any_true(z) as i32}
#[no_mangle] pub fn add(a:&mut [f32],b:&[f32]){for (x,y) in a.iter_mut().zip(b){*x+=*y;}}
#[no_mangle] pub fn sum(b:&[u8])->u64{b.iter().map(|&x|x as u64).sum()}
