/* A line by the vectors that every x86-64 has, tuned by hand: two tiles a vector from tables, the Y bytes of sixteen sprites at once, eight
   pixels of a sprite at once, eight colours a store. For peer_drawers.c. */
#include <emmintrin.h>
typedef union { u64 word; double half; } Eight;   /* half: for loads into one half of a vector */
typedef struct { Eight low[256], high[256]; } Spread;   /* a byte's bits as eight pixels, for the low plane 1 each, for the high plane 2 */
static Spread ahead, flipped;   /* bit 7 leftmost, bit 0 leftmost */
static __m128i tint[4];         /* a palette's 4 x number in all pixels */
__attribute__((constructor)) static void mktables(void){
  for(int i=0;i<256;i++) for(int k=0;k<8;k++){
    u64 a=(u64)(i>>(7-k)&1)<<8*k, f=(u64)(i>>k&1)<<8*k;
    ahead.low[i].word|=a; ahead.high[i].word|=2*a; flipped.low[i].word|=f; flipped.high[i].word|=2*f; }
  for(int i=0;i<4;i++) tint[i]=_mm_set1_epi8(4*i);
}
static inline __m128i load(const void *p){ return _mm_loadu_si128(p); }
static inline __m128i load8(const void *p){ return _mm_loadl_epi64(p); }
static inline void store(void *p,__m128i x){ _mm_storeu_si128(p,x); }
static inline void store8(void *p,__m128i x){ _mm_storel_epi64(p,x); }
static inline __m128i is0(__m128i x){ return _mm_cmpeq_epi8(x,_mm_setzero_si128()); }
static inline __m128i two(const Eight *a,const Eight *b){ return _mm_castpd_si128(_mm_loadh_pd(_mm_load_sd(&a->half),&b->half)); }

/* BACKGROUND: two tiles that share a palette; n groups of four from group g of a page's row on; the line */
static inline __m128i tiles(const u8 *tb,int a,int b,__m128i at){
  const u8 *p=tb+16*a, *q=tb+16*b;
  __m128i c=_mm_or_si128(two(&ahead.low[p[0]],&ahead.low[q[0]]),two(&ahead.high[p[8]],&ahead.high[q[8]]));
  return _mm_or_si128(c,_mm_andnot_si128(is0(c),at));
}
static inline u8 *strip(const u8 *tb,const u8 *page,int row,int g,int n,u8 *d){
  const u8 *t=page+32*row+4*g, *attr=page+960+8*(row>>2)+g;
  for(int sh=(row&2)<<1;n--;t+=4,attr++,d+=32){
    unsigned a=*attr>>sh;
    store(d,tiles(tb,t[0],t[1],tint[a&3])); store(d+16,tiles(tb,t[2],t[3],tint[a>>2&3])); }
  return d;
}
static inline void background(const u8 *u,int v,const u8 *tb,const u8 *nt,u8 *line){
  u8 row[288]; int g=v>>2&7, q=v>>10&3, pages=pagebit[u[15]&3];
  u8 *d=strip(tb+(v>>12),nt+((pages>>q&1)<<10),v>>5&31,g,8-g,row);
  strip(tb+(v>>12),nt+((pages>>(q^1)&1)<<10),v>>5&31,0,g+1,d);
  for(int i=0;i<256;i+=16) store(line+i,load(row+8*(v&3)+u[8]+i));
}

/* IN RANGE: y is in range of a line if y - least, modulo 256, is at most span. Of 16 bytes those in range; the Y bytes of 16 sprites; of 64 bytes
   those that are not 0, as bits, and whether they are eight or more */
typedef struct { __m128i least, span; } Range;
static inline Range range(int L,int h){ int span=L<h?L:h-1; return (Range){ _mm_set1_epi8(L-span), _mm_set1_epi8(span) }; }
static inline __m128i above(__m128i y,Range r){ return _mm_sub_epi8(y,r.least); }
static inline __m128i upto(__m128i d,Range r){ return _mm_cmpeq_epi8(_mm_min_epu8(d,r.span),d); }
static inline __m128i within(__m128i y,Range r){ return upto(above(y,r),r); }
static inline __m128i ys(const u8 *o){
  const __m128i m=_mm_set1_epi32(255);
  __m128i a=_mm_and_si128(load(o),m), b=_mm_and_si128(load(o+16),m), c=_mm_and_si128(load(o+32),m), d=_mm_and_si128(load(o+48),m);
  return _mm_packus_epi16(_mm_packs_epi32(a,b),_mm_packs_epi32(c,d));
}
static inline u64 bits(__m128i a,__m128i b,__m128i c,__m128i d){
  u32 low=_mm_movemask_epi8(a)|(u32)_mm_movemask_epi8(b)<<16, high=_mm_movemask_epi8(c)|(u32)_mm_movemask_epi8(d)<<16;
  return low|(u64)high<<32;
}
static inline int eight(__m128i a,__m128i b,__m128i c,__m128i d){
  __m128i none=_mm_setzero_si128(), n=_mm_sad_epu8(_mm_sub_epi8(none,_mm_add_epi8(_mm_add_epi8(a,b),_mm_add_epi8(c,d))),none);
  return _mm_cvtsi128_si32(n)+_mm_extract_epi16(n,4)>=8;
}

/* OVERFLOW: the place of the sprite that sets the bit, 64 if none does; past the eighth of the sprites m; from all Y bytes; from OAM.
   Of the 16 bytes of four sprites the search looks at 0, 5, 10 and 15; two times four are tried at once, by the lesser of their bytes. */
enum { LOOKED=0x8421 };
static inline int past_eighth(u64 m,Range r,const u8 *o){
  int n, hit;
  for(n=0;n<7;n++) m&=m-1;
  for(n=__builtin_ctzll(m)+1;n<=56;n+=8)
    if(_mm_movemask_epi8(upto(_mm_min_epu8(above(load(o+4*n),r),above(load(o+4*n+16),r)),r))&LOOKED) break;
  for(;n<=60;n+=4) if((hit=_mm_movemask_epi8(within(load(o+4*n),r))&LOOKED)) return n+__builtin_ctz(hit)/4;
  if(n==64) return 64;
  hit=_mm_movemask_epi8(within(load(o+240),r))&LOOKED<<4*(n-60)&0xFFFF;
  return hit?60+__builtin_ctz(hit)/4:64;
}
static inline int searched(__m128i a,__m128i b,__m128i c,__m128i d,Range r,const u8 *o){
  a=within(a,r); b=within(b,r); c=within(c,r); d=within(d,r);
  return eight(a,b,c,d)?past_eighth(bits(a,b,c,d),r,o):64;
}
static inline int search(const u8 *o,int L,int h){ return searched(ys(o),ys(o+64),ys(o+128),ys(o+192),range(L,h),o); }

/* CHOICE: the sprites that cover line L, as bits, and overflow */
static inline u64 choose(u8 *u,int L,int h,const u8 *o){
  const Range r=range(L-1,h); __m128i a=ys(o), b=ys(o+64), c=ys(o+128), d=ys(o+192);
  if(searched(a,b,c,d,range(L,h),o)<64) u[2]|=32;
  return L?bits(within(a,r),within(b,r),within(c,r),within(d,r)):0;
}

/* SPRITES: the eight pixels of one; whether sprite 0's meet the background; those that cover the line over it */
static inline __m128i sprite(const u8 *s,int L,int h,int ctl,const u8 *l,const u8 *r){
  int rr=L-1-s[0], at=s[2], tile=s[1]; const u8 *tb; const Spread *t=(at&64)?&flipped:&ahead;
  if(at&128) rr=h-1-rr;
  if(h==8) tb=(ctl&8)?r:l; else { tb=(tile&1)?r:l; tile=(tile&~1)+(rr>>3); rr&=7; }
  const u8 *p=tb+16*tile+rr;
  __m128i c=_mm_or_si128(load8(&t->low[p[0]]),load8(&t->high[p[8]]));
  return _mm_or_si128(c,_mm_andnot_si128(is0(c),_mm_set1_epi8(0x10|(at&3)<<2|(at&32))));
}
static inline int hits(u64 w,int x,int hidden,const u8 *line){
  u64 b; int out=x>248?x-248:0;   /* so many of its columns are right of 255 */
  memcpy(&b,line+x-out,8); b>>=8*out;
  if(x>=248) w&=((u64)1<<8*(255-x))-1;
  if(x<hidden) w=x?w>>8*(8-x)<<8*(8-x):0;
  return (_mm_movemask_epi8(_mm_or_si128(is0(_mm_cvtsi64_si128(w)),is0(_mm_cvtsi64_si128(b))))&255)!=255;
}
static inline void sprites(u8 *u,u64 m,int L,int h,const u8 *l,const u8 *r,const u8 *o,u8 *line){
  u8 sp[264], xs[8]; int cnt=0, zero=m&1, hidden=(u[1]&4)?0:8; u64 first=0;
  for(int i=0;i<256;i+=16) store(sp+i,_mm_setzero_si128());
  store8(sp+256,_mm_setzero_si128());
  for(;m&&cnt<8;m&=m-1){
    const u8 *s=o+4*__builtin_ctzll(m);
    __m128i c=sprite(s,L,h,u[0],l,r), old=load8(sp+s[3]);
    if(zero&&cnt==0) store8(&first,c);
    store8(sp+s[3],_mm_or_si128(old,_mm_and_si128(is0(old),c)));
    xs[cnt++]=s[3]; }
  if(hidden) store8(sp,_mm_setzero_si128());
  if(zero&&hits(first,o[3],hidden,line)) u[2]|=64;
  for(int i=0;i<cnt;i++){
    int x=xs[i]>248?248:xs[i];
    __m128i s=load8(sp+x), b=load8(line+x), keep=_mm_or_si128(is0(s),_mm_andnot_si128(is0(b),_mm_cmpgt_epi8(s,_mm_set1_epi8(31))));
    store8(line+x,_mm_or_si128(_mm_and_si128(keep,b),_mm_andnot_si128(keep,_mm_and_si128(s,_mm_set1_epi8(31))))); }
}

static void drawline(u8 *u,const u8 *l,const u8 *r,const u8 *nt,const u8 *o,u8 *line){
  int L=u[12], v=u[4]|u[5]<<8, h=(u[0]&32)?16:8;
  if(u[1]&8){ background(u,v,(u[0]&16)?r:l,nt,line); if(!(u[1]&2)) memset(line,0,8); }
  else memset(line,0,256);
  u64 m=choose(u,L,h,o);
  if((u[1]&16)&&m) sprites(u,m,L,h,l,r,o,line);
  steps(u,v);
}

/* COLOURS, eight to a store; and a line that is not drawn */
static void colour(const u16 *t,const u8 *p,u8 *c){
  for(int i=0;i<256;i+=8,p+=8){
    __m128i n=_mm_cvtsi32_si128(t[p[0]]);
    n=_mm_insert_epi16(n,t[p[1]],1); n=_mm_insert_epi16(n,t[p[2]],2); n=_mm_insert_epi16(n,t[p[3]],3); n=_mm_insert_epi16(n,t[p[4]],4);
    n=_mm_insert_epi16(n,t[p[5]],5); n=_mm_insert_epi16(n,t[p[6]],6); n=_mm_insert_epi16(n,t[p[7]],7);
    store(c+2*i,n); }
}
static void blank(u8 *line,u8 *c,u16 n){
  const __m128i same=_mm_set1_epi16(n);
  for(int i=0;i<256;i+=16,c+=32){ store(line+i,_mm_setzero_si128()); store(c,same); store(c+16,same); }
}
