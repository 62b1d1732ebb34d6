#define _GNU_SOURCE
#include <dlfcn.h>
#include <stdio.h>
#include <stdlib.h>
#include <string.h>
#include <time.h>
#include "../bindings/yaghrudil.h"
typedef yaghrudil_reply (*T)(const uint64_t*,size_t,const int64_t*,size_t,const uint8_t*,size_t,yaghrudil_terms,size_t*,size_t);
typedef yaghrudil_totals (*TT)(const uint64_t*,size_t);
typedef uint64_t (*M)(uint64_t*,size_t,yaghrudil_limits);
typedef yaghrudil_placed (*A)(uint64_t*,size_t,const uint8_t*,uint64_t,uint64_t,uint64_t,const uint8_t*,size_t);
static uint64_t st=88172645463325252ull; static uint64_t rn(void){st^=st<<13;st^=st>>7;st^=st<<17;return st;}
static double now(void){struct timespec t;clock_gettime(CLOCK_MONOTONIC,&t);return t.tv_sec*1e9+t.tv_nsec;}
typedef struct {uint64_t*t;size_t n;int slots;int64_t*d;uint8_t*m;yaghrudil_terms terms;size_t*room;} P;
static P mk(M make,A add,int shape,int entries,int slots){
  P p; p.slots=slots;p.n=YAGHRUDIL_TABLE_WORDS(slots);p.t=calloc(p.n,8);p.d=calloc(slots,8);p.m=calloc(slots,1);p.room=calloc(slots,8);
  yaghrudil_limits l={64,101000,20}; make(p.t,p.n,l);
  int *num=malloc(entries*4+400),k=0,c=0; while(k<entries){int m=shape==0?1:shape==1?64:shape==2?1+rn()%8:1+rn()%64; for(int i=0;i<m&&k<entries;i++)num[k++]=c; c++;}
  for(int i=entries-1;i>0;i--){int j=rn()%(i+1);int x=num[i];num[i]=num[j];num[j]=x;}
  uint8_t (*id)[32]=malloc(32*entries); int *cl=malloc(4*entries*1); uint64_t tot=0;
  for(int i=0;i<entries;i++){for(int b=0;b<32;b++)id[i][b]=rn()>>20; int cand[64],nc=0; for(int j=0;j<i;j++)if(num[j]==num[i])cand[nc++]=j;
    uint8_t ps[32*64];int np=0; if(nc){ if(shape==1){memcpy(ps,id[cand[nc-1]],32);np=1;} else {int k=1+rn()%3;for(int q=0;q<k;q++){memcpy(ps+32*np,id[cand[rn()%nc]],32);np++;}}}
    uint64_t w=4*(100+rn()%900); tot+=w; yaghrudil_placed r=add(p.t,p.n,id[i],rn()%(1ull<<31),w,4*(rn()%20),ps,32*np); if(r.answer)abort();}
  p.terms=(yaghrudil_terms){tot/4*3,400,1000}; free(num);free(id);free(cl); return p;}
static int cmp(const void*a,const void*b){double x=*(double*)a,y=*(double*)b;return x<y?-1:x>y;}
int main(int c,char**v){ // ab SECONDS CELLS(comma) so...
  double secs=atof(v[1]); int nv=c-3; T tp[8];TT tt[8]; M mk0=0;A ad0=0;
  for(int i=0;i<nv;i++){void*h=dlopen(v[3+i],RTLD_NOW|RTLD_LOCAL);if(!h){puts(dlerror());return 1;} tp[i]=(T)dlsym(h,"yaghrudil_pool_template");tt[i]=(TT)dlsym(h,"yaghrudil_pool_totals"); if(!i){mk0=(M)dlsym(h,"yaghrudil_pool_make");ad0=(A)dlsym(h,"yaghrudil_pool_add");}}
  for(char*s=strtok(v[2],",");s;s=strtok(0,",")){ int shape=*s=='s'&&s[1]=='i'?0:*s=='c'?1:*s=='s'?2:3; int e=atoi(strchr(s,'-')+1);
    int np=e<=16?256:e<=128?64:16; P*p=malloc(np*sizeof*p); for(int i=0;i<np;i++)p[i]=mk(mk0,ad0,shape,e,e);
    double *best=malloc(nv*np*8*2); for(int i=0;i<nv*np*2;i++)best[i]=1e18;
    size_t *ref=malloc(8*e);
    for(int i=0;i<np;i++){ size_t w=0; for(int k=0;k<nv;k++){memset(p[i].room,0,8*e);yaghrudil_reply r=tp[k](p[i].t,p[i].n,p[i].d,e,p[i].m,e,p[i].terms,p[i].room,e);
        if(r.answer){printf("answer %lu\n",r.answer);return 1;} if(!k){w=r.written;memcpy(ref,p[i].room,8*e);} else if(w!=r.written||memcmp(ref,p[i].room,8*e)){printf("DIFFERENT %s pool %d\n",s,i);return 1;}}}
    double end=now()+secs*1e9; int rounds=0; while(now()<end||rounds<5){ rounds++;
      for(int k=0;k<nv;k++) for(int i=0;i<np;i++){double a=now();tp[k](p[i].t,p[i].n,p[i].d,e,p[i].m,e,p[i].terms,p[i].room,e);double b=now()-a; if(b<best[k*np+i])best[k*np+i]=b;}
      if(!getenv("NOTOT"))for(int k=0;k<nv;k++) for(int i=0;i<np;i++){double a=now();tt[k](p[i].t,p[i].n);double b=now()-a; if(b<best[(nv+k)*np+i])best[(nv+k)*np+i]=b;}}
    printf("%-12s",s); double b0=0; for(int k=0;k<nv;k++){qsort(best+k*np,np,8,cmp);double m=best[k*np+np/2];if(!k)b0=m;qsort(best+(nv+k)*np,np,8,cmp); printf("  %9.0f (%.3f) t12 %8.0f",m,m/b0,best[(nv+k)*np+np/2]);} puts(""); }
}
