// Native driver: packings of few groups. fleet FILE.dat TURNS
use crate::*;
use crate::shim::{Vec, Global};
use carp_base::{Instance, RawEdge};
use plan_model::Proposer;
unsafe extern "C" { fn clock() -> i64; }
pub fn now()->f64{unsafe{clock() as f64/1e6}}
fn nums(l:&str)->std::vec::Vec<u64>{let mut v=vec![];let mut c=String::new();for ch in l.chars(){if ch.is_ascii_digit(){c.push(ch)}else if !c.is_empty(){v.push(c.parse().unwrap());c.clear()}}if !c.is_empty(){v.push(c.parse().unwrap())}v}
fn pc(i:&Instance,p:&plan_model::Plan)->u128{(0..p.len()).map(|k|plan_model::cost_of(i,p.walk(k))).sum()}
pub static FILLS: std::sync::atomic::AtomicUsize=std::sync::atomic::AtomicUsize::new(0);
pub fn main(){
  let a:std::vec::Vec<String>=std::env::args().collect();
  let t=std::fs::read_to_string(&a[1]).unwrap();
  let seeds:u64=a[2].parse().unwrap();
  let (mut n,mut q,mut depot)=(0u64,0u64,1u64);let mut req=vec![];let mut non=vec![];
  for l in t.lines(){let v=nums(l);
    if l.starts_with("VERTICES"){n=v[0]} else if l.starts_with("CAPACIDAD"){q=v[0]} else if l.starts_with("DEPOSITO"){depot=v[0]}
    else if l.trim_start().starts_with('('){ if l.contains("demanda"){req.push(RawEdge{u:v[0],v:v[1],cost:v[2],demand:v[3],service:v[2]})}else{non.push(RawEdge{u:v[0],v:v[1],cost:v[2],demand:0,service:0})}}}
  let g=Global;
  let inst=Instance::build(g,n,depot,q,&req,&non).ok().unwrap();
  let pool=cut_pool::ShorePool::new(g);
  let dist=task_tours::cost_distances(g,&inst).ok().unwrap();
  let p=fleet_pack::pack(g,&inst,seeds).ok().unwrap();
  println!("fleet {} bound {} turns {}",p.count,p.bound,p.turns);
}
