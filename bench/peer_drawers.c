/* Line drawers to measure against, on the 16-byte record and by the calls of include/ppu.h. They set the measure of speed, not of truth.
   Compiled three times. The first two are ordinary C: the background a tile at a time, then a line of sprites, then one pass that merges
   them, then one that gives each pixel number its colour. -DPFX=plain_ works out each pixel by itself with eight shifts a tile, searches for
   overflow on every line, and colours pixels one by one; -DPFX=table_ -DSPREAD takes eight pixels at a time from a table of 256 words, searches
   only where eight sprites are in range, and stores four colours at a time.
   -DPFX=sse2_ -DSSE2 is tuned by hand for plain x86-64: peer_sse2.h. */
#include "peer.h"
#include <string.h>
static inline int ok_board(u8 b){ return b<16 && (b&7)<4; }
static inline int ok(const u8 *u){
  return !(u[2]&31) && u[5]<128 && u[7]<128 && u[8]<8 && u[9]<2 && (u[12]|u[13]<<8)<262 && u[14]<2 && ok_board(u[15]); }
#define RET(u,b,c) ((u64)(b)<<8 | (u64)(((u)[0]&(u)[2])>>7)<<16 | (u64)(c)<<32)
#define MET ((u64)1<<17)
static inline int drawing(const u8 *u){ int n=u[12]|u[13]<<8; return (u[1]&0x18) && (n<240||n==261); }
static const u8 pagebit[4]={0x0C,0x0A,0x00,0x0F};   /* bit q: page of quarter q */
static inline int cell(u8 board,int a){ return (a&1023) | ((pagebit[board&3]>>((a>>10)&3))&1)<<10; }
static inline int pcell(int a){ a&=31; return (a&0x13)==0x10 ? a&15 : a; }
static inline void addv(u8 *u){ int v=((u[4]|u[5]<<8)+((u[0]&4)?32:1))&0x7FFF; u[4]=v; u[5]=v>>8; }

u64 ppu_fresh(u8 *u,size_t un,u8 board){
  if(un!=16) return 2; 
  if(!ok_board(board)) return 3;
  memset(u,0,16); u[15]=board; return 0; }
u64 ppu_read(u8 *u,size_t un,u16 ad,const u8 *l,size_t ln,const u8 *r,size_t rn,const u8 *n,size_t nn,const u8 *o,size_t on,const u8 *p,size_t pn){
  if(un!=16||ln!=4096||rn!=4096||nn!=2048||on!=256||pn!=32) return 2;
  if(!ok(u)) return 3;
  if((ad>>13)!=1) return 1;
  int port=ad&7;
  if((port==4||port==7)&&drawing(u)) return 4;
  switch(port){
  case 2: u[11]=(u[2]&0xE0)|(u[11]&31); u[2]&=0x7F; u[9]=0; break;
  case 4: u[11]=o[u[3]]&((u[3]&3)==2?0xE3:0xFF); break;
  case 7: { int a=(u[4]|u[5]<<8)&0x3FFF;
    if(a>=0x3F00) { u[11]=(u[11]&0xC0)|(p[pcell(a)]&((u[1]&1)?0x30:0x3F)); u[10]=n[cell(u[15],a)]; }
    else { u[11]=u[10]; u[10]= a<0x1000?l[a]: a<0x2000?r[a&0xFFF]: n[cell(u[15],a)]; }
    addv(u); } }
  return RET(u,u[11],0);
}
u64 ppu_write(u8 *u,size_t un,u16 ad,u8 b,u8 *l,size_t ln,u8 *r,size_t rn,u8 *n,size_t nn,u8 *o,size_t on,u8 *p,size_t pn){
  if(un!=16||ln!=4096||rn!=4096||nn!=2048||on!=256||pn!=32) return 2;
  if(!ok(u)) return 3;
  if((ad>>13)!=1) return 1;
  int port=ad&7;
  if(port==7&&drawing(u)) return 4;
  u[11]=b;
  if(!u[14] && (0x63>>port&1)) return RET(u,0,0);
  switch(port){
  case 0: u[0]=b; u[7]=(u[7]&0x73)|(b&3)<<2; break;
  case 1: u[1]=b; break;
  case 3: u[3]=b; break;
  case 4: if(!drawing(u)) o[u[3]++]=b; break;
  case 5: if(!u[9]){ u[6]=(u[6]&0xE0)|b>>3; u[8]=b&7; } else { u[6]=(u[6]&31)|(b&0x38)<<2; u[7]=(u[7]&0x0C)|(b&7)<<4|b>>6; } u[9]^=1; break;
  case 6: if(!u[9]) u[7]=b&63; else { u[6]=b; u[4]=b; u[5]=u[7]; } u[9]^=1; break;
  case 7: { int a=(u[4]|u[5]<<8)&0x3FFF;
    if(a>=0x3F00) p[pcell(a)]=b&63; else if(a>=0x2000) n[cell(u[15],a)]=b;
    else if(u[15]&8) { if(a<0x1000) l[a]=b; else r[a&0xFFF]=b; }
    addv(u); } }
  return RET(u,0,0);
}
u64 ppu_dma(u8 *u,size_t un,u8 *o,size_t on,const u8 *g,size_t gn){
  if(un!=16||on!=256||gn!=256) return 2;
  if(!ok(u)) return 3;
  if(!drawing(u)){ int a=u[3]; memcpy(o+a,g,256-a); memcpy(o,g+256-a,a); }
  u[11]=g[255]; return RET(u,0,0);
}

/* the unit after a drawn line: v one row down, with t's columns, and OAMADDR 0 */
static inline void steps(u8 *u,int v){
  if((v&0x7000)!=0x7000) v+=0x1000; else { v&=0xFFF; int y=v>>5&31; if(y==29) v=(v&~0x3E0)^0x800; else if(y==31) v&=~0x3E0; else v+=32; }
  v=(v&~0x41F)|((u[6]|u[7]<<8)&0x41F); u[4]=v; u[5]=v>>8; u[3]=0;
}

#ifdef SSE2
#include "peer_sse2.h"
#else
/* Whether byte y is in range of line L. The search for overflow: the place of the sprite that sets the bit, 64 if none does. The choice of the
   first eight sprites that cover line L: how many, and whether to search. */
static inline int in(int y,int L,int h){ return (unsigned)(L-y)<(unsigned)h; }
#ifdef SPREAD
static int search(const u8 *o,int L,int h){
  int n, b, found=0;
  for(n=0;found<8;n++){ if(n==64) return 64; found+=in(o[4*n],L,h); }
  for(b=0;n<64;n++,b=(b+1)&3) if(in(o[4*n+b],L,h)) break;
  return n;
}
static inline int choose(int L,int h,const u8 *o,int *list,int *look){
  int n, cnt=0, found=0;
  for(n=0;n<64;n++){ int y=o[4*n];
    if(L>0 && in(y,L-1,h) && cnt<8) list[cnt++]=n;
    found+=in(y,L,h); }
  *look=found>7; return cnt;
}
#else
static int search(const u8 *o,int L,int h){
  int n, b=0, found=0;
  for(n=0;n<64;n++){
    if(found<8) found+=in(o[4*n],L,h);
    else if(in(o[4*n+b],L,h)) break;
    else b=(b+1)&3; }
  return n;
}
static inline int choose(int L,int h,const u8 *o,int *list,int *look){
  int n, cnt=0;
  for(n=0;n<64;n++) if(L>0 && in(o[4*n],L-1,h) && cnt<8) list[cnt++]=n;
  *look=1; return cnt;
}
#endif
#ifdef SPREAD
static u64 spread[256]; static int spread_ready;
static void mkspread(void){ for(int i=0;i<256;i++){ u8 b[8]; for(int k=0;k<8;k++) b[k]=(i>>(7-k))&1; memcpy(&spread[i],b,8);} spread_ready=1; }
#endif
static void drawline(u8 *u,const u8 *l,const u8 *r,const u8 *nt,const u8 *o,u8 *line){
  u8 bgb[33*8], sp[256+8]; int L=u[12], v=u[4]|u[5]<<8, ctl=u[0], mask=u[1], x=u[8], h=(ctl&32)?16:8;
  int any=0, zero=0, i, k;
#ifdef SPREAD
  if(!spread_ready) mkspread();
#endif
  if(mask&8){
    const u8 *tb=(ctl&16)?r:l; int fine=v>>12, row=v>>5&31, w=v, sh=(row&2)<<1; u8 *d=bgb;
    for(i=0;i<33;i++,d+=8){
      const u8 *page=nt+((pagebit[u[15]&3]>>(w>>10&3)&1)<<10);
      int tile=page[w&0x3FF], at=page[0x3C0+(row>>2)*8+((w&31)>>2)]>>(sh+(w&2))&3;
      int lo=tb[tile*16+fine], hi=tb[tile*16+8+fine];
#ifdef SPREAD
      u64 c=spread[lo]|spread[hi]<<1, m=spread[lo|hi]; c|=m*(u64)(at*4); memcpy(d,&c,8);
#else
      at*=4;
      for(k=0;k<8;k++){ int c=(lo>>(7-k)&1)|(hi>>(7-k)&1)<<1; d[k]=c?c|at:0; }
#endif
      if((w&31)==31) w^=0x41F; else w++;
    }
    memcpy(line,bgb+x,256);
    if(!(mask&2)) memset(line,0,8);
  } else memset(line,0,256);
  /* sprites */
  int list[8], look, cnt=choose(L,h,o,list,&look);
  if((mask&16)&&cnt){
    memset(sp,0,sizeof sp);
    for(i=cnt-1;i>=0;i--){ const u8 *s=o+4*list[i]; int rr=L-1-s[0], at=s[2], tile=s[1]; const u8 *tb; 
      if(at&128) rr=h-1-rr;
      if(h==8) tb=(ctl&8)?r:l; else { tb=(tile&1)?r:l; tile=(tile&~1)+(rr>>3); rr&=7; }
      int lo=tb[tile*16+rr], hi=tb[tile*16+8+rr], base=0x10|(at&3)<<2|(at&32)|(list[i]==0?64:0);
      u8 *d=sp+s[3];
      if(lo|hi) any=1;
      if(at&64) for(k=0;k<8;k++){ int c=(lo>>k&1)|(hi>>k&1)<<1; if(c) d[k]=base|c; }
      else for(k=0;k<8;k++){ int c=(lo>>(7-k)&1)|(hi>>(7-k)&1)<<1; if(c) d[k]=base|c; }
    }
    if(any){ if(!(mask&4)) memset(sp,0,8);
      if(line[255]) sp[255]&=~64;
      for(i=0;i<256;i++){ u8 s=sp[i], b=line[i]; zero|=(s&64)&&b; line[i]=(s && !((s&32)&&b)) ? (s&31) : b; } }
  }
  if(zero) u[2]|=64;
  if(look && search(o,L,h)<64) u[2]|=32;
  steps(u,v);
}
/* Colours are looked up by pixel number. Of the ordinary ways with 32 entries gcc's fastest stores four at a time, two such stores a step:
   58 ns a line alone, where one colour to a store takes 71, two 70, four in one step 62; clang's takes 61 so, and no other less. */
#ifdef SPREAD
static inline u64 two(const u16 *t,const u8 *p){ return t[p[0]]|(u32)t[p[1]]<<16; }
static void colour(const u16 *t,const u8 *line,u8 *c){
  for(int i=0;i<256;i+=8){
    u64 a=two(t,line+i)|two(t,line+i+2)<<32, b=two(t,line+i+4)|two(t,line+i+6)<<32;
    memcpy(c+2*i,&a,8); memcpy(c+2*i+8,&b,8); } }
#else
static void colour(const u16 *t,const u8 *line,u8 *c){ for(int i=0;i<256;i++) memcpy(c+2*i,&t[line[i]],2); }
#endif
static void blank(u8 *line,u8 *c,u16 n){
  u64 w=n*0x0001000100010001u; memset(line,0,256); for(int i=0;i<512;i+=8) memcpy(c+i,&w,8); }
#endif

/* The table of colours by pixel number. A call makes it once if the screen is on, a call of one line only if that is drawn. */
static inline u16 shade(u8 mask,u8 byte){ return (byte&((mask&1)?0x30:0x3F))|(mask>>5)<<6; }
static inline void mktable(u8 mask,const u8 *p,u16 *restrict t){
  for(int i=0;i<32;i++) t[i]=shade(mask,p[i]);
  t[16]=t[0]; t[20]=t[4]; t[24]=t[8]; t[28]=t[12]; }
/* with the screen off all is cell 0, or the one at v from $3F00 on */
static inline u16 backdrop(const u8 *u,const u8 *p){ int a=(u[4]|u[5]<<8)&0x3FFF; return shade(u[1],p[a<0x3F00?0:pcell(a)]); }
static inline void one(u8 *u,const u8 *l,const u8 *r,const u8 *nt,const u8 *o,const u8 *p,const u16 *t,u8 *line,u8 *c){
  int L=u[12]|u[13]<<8;
  if(L<240){ if(u[1]&0x18){ drawline(u,l,r,nt,o,line); colour(t,line,c); } else blank(line,c,backdrop(u,p)); }
  else if(L==241) u[2]|=128;
  else if(L==261){ u[2]=0; u[14]=1; if(u[1]&0x18){ u[4]=u[6]; u[5]=u[7]; u[3]=0; } }
  L= L==261?0:L+1; u[12]=L; u[13]=L>>8;
}
#define BAD_LENGTH un!=16||ln!=4096||rn!=4096||nn!=2048||on!=256||pn!=32||bn!=256||cn!=512
/* At most m lines; stop has bit 6 if status bit 6 going from 0 to 1 ends them. The answer. One line needs no loop. */
static inline u64 lines(u8 *u,u32 m,int stop,const u8 *l,const u8 *r,const u8 *n,const u8 *o,const u8 *p,u8 *b,u8 *c){
  u16 t[32]; u32 k=0; int met=0, was=u[2];
  if(m==1){
    if((u[1]&0x18)&&(u[12]|u[13]<<8)<240) mktable(u[1],p,t);
    one(u,l,r,n,o,p,t,b,c); return RET(u,0,1)|(u[2]&~was&stop?MET:0); }
  if(u[1]&0x18) mktable(u[1],p,t);
  while(k<m&&!met){ was=u[2]; one(u,l,r,n,o,p,t,b,c); k++; met=u[2]&~was&stop; }
  return RET(u,0,k)|(met?MET:0);
}
u64 ppu_run(u8 *u,size_t un,u16 m,u8 why,const u8 *l,size_t ln,const u8 *r,size_t rn,const u8 *n,size_t nn,const u8 *o,size_t on,
            const u8 *p,size_t pn,u8 *b,size_t bn,u8 *c,size_t cn){
  u64 met=0;
  if(why>2) return 5;
  if(BAD_LENGTH) return 2;
  if(!ok(u)) return 3;
  if(why==1&&(u[0]&128)){ int f=(241-(u[12]|u[13]<<8)+262)%262+1; if(f<=m){ m=f; met=MET; } }
  return lines(u,m,why==2?64:0,l,r,n,o,p,b,c)|met;
}
u64 ppu_search(const u8 *u,size_t un,u16 L,const u8 *o,size_t on){
  if(L>239) return 5;
  if(un!=16||on!=256) return 2;
  if(!ok(u)) return 3;
  int n=search(o,L,(u[0]&32)?16:8);
  return RET(u,0,0)|(u64)(n<64?n+1:64)<<24;
}
u64 ppu_play(u8 *u,size_t un,const u8 *g,size_t gn,u8 *l,size_t ln,u8 *r,size_t rn,u8 *n,size_t nn,u8 *o,size_t on,u8 *p,size_t pn,
             u8 *b,size_t bn,u8 *c,size_t cn){
  u16 m;
  if(gn<4||g[0]>2||(g[0]!=1&&g[3])) return 5;
  m=g[1]<<8|g[2];
  if(g[0]==0) return ppu_read(u,un,m,l,ln,r,rn,n,nn,o,on,p,pn);
  if(g[0]==1) return ppu_write(u,un,m,g[3],l,ln,r,rn,n,nn,o,on,p,pn);
  if(BAD_LENGTH) return 2;
  if(!ok(u)) return 3;
  return lines(u,m,0,l,r,n,o,p,b,c);
}
