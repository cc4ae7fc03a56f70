#include <stdio.h>
#include <stdint.h>
#include <stdlib.h>
#include <string.h>
#include <time.h>
typedef struct {const void*p; size_t n;} sl; typedef struct {uint32_t refusal; size_t samples; uint32_t rows;} res;
#define R(n) void rt_##n(res*,sl*,sl*,size_t,size_t,sl*,sl*,sl*,sl*);
uint32_t hand_search(const uint16_t*,const uint16_t*,size_t,size_t,uint16_t*,uint16_t*,uint32_t*);
R(base) R(new)
static uint32_t st; static uint16_t step(void){st=st*1664525u+1013904223u;return st>>16;}
static int lattice(int x,int y){uint32_t s=st; st=((uint32_t)x*0x9e3779b1u)^((uint32_t)y*0x85ebca6bu); step(); int r=step()&255; st=s; return r;}
static int octave(int x,int y,int c){int i=x/c,j=y/c,f=x%c,g=y%c; int r0=lattice(i,j)*(c-f)+lattice(i+1,j)*f, r1=lattice(i,j+1)*(c-f)+lattice(i+1,j+1)*f; return (r0*(c-g)+r1*g)/(c*c);}
static void texture(uint16_t*p,int w,int h,int dx,int dy,int noise){st=7+dx;for(int r=0;r<h;r++)for(int c=0;c<w;c++){int x=8*c+dx+4096,y=8*r+dy+4096;int v=octave(x,y,240)+octave(x+999,y,72)+octave(x,y+999,24);p[r*w+c]=v+step()%(noise+1);}}
static double now(void){struct timespec t;clock_gettime(CLOCK_PROCESS_CPUTIME_ID,&t);return t.tv_sec+t.tv_nsec*1e-9;}
int main(int argc,char**argv){int rounds=argc>1?atoi(argv[1]):25; int only=argc>2?atoi(argv[2]):-1; int w=640,h=480;int n=w*h;uint16_t*a=malloc(2*n),*b=malloc(2*n),*ha=malloc(n),*hb=malloc(n);uint32_t*w1=malloc(4*n),*w2=malloc(4*n);uint8_t*cl=calloc(1200,1);
 for(int kind=0;kind<4;kind++){
 if(only>=0&&kind)break;
 int mask=kind==3?65535:1023;
 if(kind==0){texture(a,w,h,43,-29,3);texture(b,w,h,0,0,3);}else if(kind==2){texture(a,w,h,0,0,3);memcpy(b,a,2*n);}else{st=1;for(int i=0;i<n;i++)a[i]=step()&mask;for(int i=0;i<n;i++)b[i]=step()&mask;}
 double best[3]={9,9,9};uint32_t rows[3]={0,0,0};
 for(int r=0;r<rounds;r++)for(int k=0;k<3;k++){if(only>=0&&k!=only)continue; double t=now();
   if(k==0)rows[k]=hand_search(a,b,w,h,ha,hb,w1);else{res q;sl A={a,n},B={b,n},C={cl,1200},H={ha,n/4},G={hb,n/4},W={w2,1200};(k==1?rt_base:rt_new)(&q,&A,&B,w,h,&C,&H,&G,&W);rows[k]=q.rows;}
   t=now()-t;if(t<best[k])best[k]=t; if(only<0&&k&&memcmp(w1,w2,4*1200))printf("DIFF %d\n",k);}
 printf("%s: hand %.3f ms base/hand %.3f new/hand %.3f new/base %.3f rows %u %u %u\n",kind==0?"textured":kind==1?"noise10":kind==2?"static":"noise16",best[0]*1e3,best[1]/best[0],best[2]/best[0],best[2]/best[1],rows[0],rows[1],rows[2]);}
}
