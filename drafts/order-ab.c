#define _GNU_SOURCE
#include <stdio.h>
#include <stdlib.h>
#include <stdint.h>
#include <string.h>
#include <dlfcn.h>
#include <time.h>
typedef struct {uint64_t a; size_t b;} R;
typedef R (*LIN)(void*,size_t,void*,size_t,void*,size_t,void*,size_t);
typedef R (*CH)(void*,size_t,void*,size_t,void*,size_t);
static uint64_t s=88172645463325252ull; static uint64_t rnd(){s^=s<<13;s^=s>>7;s^=s<<17;return s*0x2545F4914F6CDD1Dull>>11;}
typedef struct {int n; int64_t fee[64]; uint64_t size[64]; uint64_t par[64];} C;
#define M 3000
static C cs[M];
static void gen(const char*shape,int n,const char*num){
 for(int c=0;c<M;c++){C*x=&cs[c];x->n=n;int perm[64];for(int i=0;i<n;i++)perm[i]=i;if(c&1)for(int i=n-1;i>0;i--){int j=rnd()%(i+1);int t=perm[i];perm[i]=perm[j];perm[j]=t;}
  for(int i=0;i<n;i++){x->par[i]=0;}
  for(int i=0;i<n;i++){uint64_t p=0;
   if(!strcmp(shape,"chain")){if(i)p|=1ull<<perm[i-1];}
   else if(!strcmp(shape,"star")){if(i)p|=1ull<<perm[0];}
   else if(!strcmp(shape,"random")){for(int j=0;j<i;j++)if(rnd()%4==0)p|=1ull<<perm[j];}
   else {if(i){int k=1+rnd()%3;while(k--)p|=1ull<<perm[rnd()%i];}}
   x->par[perm[i]]=p;
   if(!strcmp(num,"ord")){x->size[i]=100+rnd()%3900;x->fee[i]=rnd()%(1ull<<31);}
   else if(!strcmp(num,"eq")){x->size[i]=100+rnd()%3900;x->fee[i]=x->size[i]*10;}
   else if(!strcmp(num,"wide")){x->size[i]=1+rnd()%4000000;x->fee[i]=rnd()%(1ull<<40);}
   else if(!strcmp(num,"limits")){x->size[i]=1+rnd()%4000000;x->fee[i]=(int64_t)(rnd()%8400000000000001ull)-4200000000000000ll;}
   else {x->size[i]=~0ull-rnd()%1000;x->fee[i]=(int64_t)(rnd()%8400000000000001ull)-4200000000000000ll;}
  }}}
static double now(){struct timespec t;clock_gettime(CLOCK_THREAD_CPUTIME_ID,&t);return t.tv_sec*1e9+t.tv_nsec;}
static int cmp(const void*a,const void*b){double x=*(double*)a,y=*(double*)b;return x<y?-1:x>y;}
int main(int argc,char**argv){
 int k=0;void*h[8];LIN l[8];CH ch[8];int i=1;
 for(;i<argc&&strcmp(argv[i],"--");i++){h[k]=dlopen(argv[i],RTLD_NOW|RTLD_LOCAL);if(!h[k]){puts(dlerror());return 1;}l[k]=(LIN)dlsym(h[k],"yaghrudil_linearize");ch[k]=(CH)dlsym(h[k],"yaghrudil_chunk_lengths");k++;}
 for(i++;i<argc;i++){char sh[32],nu[32]="ord";int n;char*a=strdup(argv[i]);sscanf(a,"%31[a-z]-%d-%31s",sh,&n,nu);gen(sh,n,nu);
  int slice=n<=8?200:30; int rounds=M/slice; static double t[8][4000];int m[8]={0};
  for(int rep=0;rep<3;rep++)for(int r=0;r<rounds;r++){for(int q=0;q<k;q++){int w=(q+r)%k;
   size_t room[64],len[64];
   double t0=now();
   for(int c=r*slice;c<(r+1)*slice;c++){C*x=&cs[c];l[w](x->fee,n,x->size,n,x->par,n,room,64);int64_t f[64];uint64_t z[64];for(int j=0;j<n;j++){f[j]=x->fee[room[j]];z[j]=x->size[room[j]];}ch[w](f,n,z,n,len,64);}
   double d=(now()-t0)/slice; if(rep)t[w][m[w]++]=d;
  }}
  printf("%-20s",argv[i]);double base=0;for(int q=0;q<k;q++){
   /* mean of the lower half of slices */
   qsort(t[q],m[q],8,cmp);double sum=0;for(int j=0;j<m[q]/2;j++)sum+=t[q][j];sum/=m[q]/2;if(!q)base=sum;printf("  %9.1f (%5.1f%%)",sum,100*sum/base);}
  printf("\n");fflush(stdout);
 }
}
