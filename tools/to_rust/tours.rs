// Native driver: the rounds of the four helpers. tours FILE.dat SEEDS
use crate::*;
use crate::shim::{Vec, Global};
use carp_base::{Instance, RawEdge};
use plan_model::Proposer;
unsafe extern "C" { fn clock() -> i64; }
pub fn now()->f64{unsafe{clock() as f64/1e6}}
fn nums(l:&str)->std::vec::Vec<u64>{let mut v=vec![];let mut c=String::new();for ch in l.chars(){if ch.is_ascii_digit(){c.push(ch)}else if !c.is_empty(){v.push(c.parse().unwrap());c.clear()}}if !c.is_empty(){v.push(c.parse().unwrap())}v}
fn pc(i:&Instance,p:&plan_model::Plan)->u128{(0..p.len()).map(|k|plan_model::cost_of(i,p.walk(k))).sum()}
pub static FILLS: std::sync::atomic::AtomicUsize=std::sync::atomic::AtomicUsize::new(0);
pub fn main(){
  let a:std::vec::Vec<String>=std::env::args().collect();
  let t=std::fs::read_to_string(&a[1]).unwrap();
  let seeds:u64=a[2].parse().unwrap();
  let (mut n,mut q,mut depot)=(0u64,0u64,1u64);let mut req=vec![];let mut non=vec![];
  for l in t.lines(){let v=nums(l);
    if l.starts_with("VERTICES"){n=v[0]} else if l.starts_with("CAPACIDAD"){q=v[0]} else if l.starts_with("DEPOSITO"){depot=v[0]}
    else if l.trim_start().starts_with('('){ if l.contains("demanda"){req.push(RawEdge{u:v[0],v:v[1],cost:v[2],demand:v[3],service:v[2]})}else{non.push(RawEdge{u:v[0],v:v[1],cost:v[2],demand:0,service:0})}}}
  let g=Global;
  let inst=Instance::build(g,n,depot,q,&req,&non).ok().unwrap();
  let pool=cut_pool::ShorePool::new(g);
  let dist=task_tours::cost_distances(g,&inst).ok().unwrap();
  for s in 1..=seeds{
    let mut best=branch_rules::Branch::new(g).fixed_plan(g,&inst,&pool,&dist).ok().unwrap();
    let mut cost=pc(&inst,&best);
    let t0=now();let mut rounds=0;let mut line=String::new();
    let mut hs:std::vec::Vec<Box<dyn Proposer>>=vec![Box::new(path_scanning::Scanner::new(1)),Box::new(augment_merge::Merger::new(2)),Box::new(giant_split::Splitter::new(3)),Box::new(local_moves::Mover::new(4))];
    for (k,h) in hs.iter_mut().enumerate(){h.reseed(s+k as u64)}
    let mut tm=0.0;
    for _ in 0..4{ rounds+=1;let mut better=false; line+=" |";
      for (k,h) in hs.iter_mut().enumerate(){let t1=now();
        if let Ok(Some(p))=h.propose(g,&inst,&best){let c=pc(&inst,&p);line+=&format!(" {}",c);if c<cost{cost=c;best=p;better=true}}
        if k==3{tm+=now()-t1}}
      if !better{break}}
    println!("{} seed {} cost {} rounds {} all {:.3} s, mover {:.3} s{}",a[1].rsplit('/').next().unwrap(),s,cost,rounds,now()-t0,tm,line);
  }
}
