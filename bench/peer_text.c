/* The text of a screen as anyone would write it, to measure against, by the calls of include/ppu.h: one pass for the text; for the page the
   tile of each character, made once a call with -1 for none, a loop that looks whether all are known, a loop that stores. */
#include "peer.h"
u64 ppu_text(const u8 *page,size_t pn,const u8 *table,size_t tn,u8 *rows,size_t rn){
  u32 n=0; int k;
  if(pn!=1024||tn!=256||rn!=960) return 2;
  for(k=0;k<960;k++){ u8 c=table[page[k]]; if(c==0){ c=32; n++; } rows[k]=c; }
  return (u64)n<<32;
}
u64 ppu_page(const u8 *rows,size_t rn,const u8 *table,size_t tn,u8 *page,size_t pn){
  int tile[256], k;
  if(rn!=960||tn!=256||pn!=1024) return 2;
  for(k=0;k<256;k++) tile[k]=-1;
  for(k=255;k>=0;k--) tile[table[k]]=k;
  tile[0]=-1;
  for(k=0;k<960;k++) if(tile[rows[k]]<0) return 8;
  for(k=0;k<960;k++) page[k]=(u8)tile[rows[k]];
  return 0;
}
