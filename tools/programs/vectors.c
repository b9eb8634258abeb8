// Loops over arrays of each number type, which a compiler turns into vector operators.
#include <stdint.h>
#include <stddef.h>
#define F(T,N) \
 void add_##N(T*a,const T*b,size_t n){for(size_t i=0;i<n;i++)a[i]+=b[i];} \
 void mul_##N(T*a,const T*b,size_t n){for(size_t i=0;i<n;i++)a[i]*=b[i];} \
 T sum_##N(const T*a,size_t n){T s=0;for(size_t i=0;i<n;i++)s+=a[i];return s;} \
 void max_##N(T*a,const T*b,size_t n){for(size_t i=0;i<n;i++)a[i]=a[i]>b[i]?a[i]:b[i];} \
 void sel_##N(T*a,const T*b,T k,size_t n){for(size_t i=0;i<n;i++)a[i]=b[i]<k?b[i]:a[i]+k;} \
 void rev_##N(T*a,const T*b,size_t n){for(size_t i=0;i<n;i++)a[i]=b[n-1-i];}
F(int8_t,i8) F(uint8_t,u8) F(int16_t,i16) F(uint16_t,u16) F(int32_t,i32) F(uint32_t,u32) F(int64_t,i64) F(uint64_t,u64) F(float,f32) F(double,f64)
#define C(S,T,N) void cv_##N(T*a,const S*b,size_t n){for(size_t i=0;i<n;i++)a[i]=(T)b[i];}
C(int8_t,int16_t,a) C(int16_t,int32_t,b) C(int32_t,int64_t,c) C(float,double,d) C(double,float,e) C(int32_t,float,f) C(float,int32_t,g) C(uint8_t,int32_t,h) C(int32_t,uint8_t,i) C(double,int32_t,j) C(uint32_t,float,k) C(float,uint32_t,l) C(int16_t,int8_t,m)
void sh_i32(int32_t*a,int k,size_t n){for(size_t i=0;i<n;i++)a[i]=(a[i]<<k)^((uint32_t)a[i]>>3)^(a[i]>>k);}
void sh_i16(int16_t*a,int k,size_t n){for(size_t i=0;i<n;i++)a[i]=(a[i]<<k);}
void ab(int32_t*a,size_t n){for(size_t i=0;i<n;i++)a[i]=a[i]<0?-a[i]:a[i];}
void sq(double*a,size_t n){for(size_t i=0;i<n;i++)a[i]=__builtin_sqrt(a[i]);}
void fl(float*a,size_t n){for(size_t i=0;i<n;i++)a[i]=__builtin_floorf(a[i])+__builtin_ceilf(a[i])*__builtin_truncf(a[i]);}
int32_t dot(const int16_t*a,const int16_t*b,size_t n){int32_t s=0;for(size_t i=0;i<n;i++)s+=a[i]*b[i];return s;}
void avg(uint8_t*a,const uint8_t*b,size_t n){for(size_t i=0;i<n;i++)a[i]=(a[i]+b[i]+1)>>1;}
