// Native driver: the search of branch_tree for a given cost. ./cgf FILE.dat COST TURNS
use crate::*;
use crate::shim::{Vec, Global};
use carp_base::{Instance, RawEdge};
use branch_rules::{Branch, Decision, Node, PriceSet};
unsafe extern "C" { fn clock() -> i64; }
pub fn now()->f64{unsafe{clock() as f64/1e6}}
fn nums(l:&str)->std::vec::Vec<u64>{let mut v=vec![];let mut c=String::new();for ch in l.chars(){if ch.is_ascii_digit(){c.push(ch)}else if !c.is_empty(){v.push(c.parse().unwrap());c.clear()}}if !c.is_empty(){v.push(c.parse().unwrap())}v}
pub static FILLS: std::sync::atomic::AtomicUsize=std::sync::atomic::AtomicUsize::new(0);
pub fn main(){
  let a:std::vec::Vec<String>=std::env::args().collect();
  let t=std::fs::read_to_string(&a[1]).unwrap();
  let cost:i128=a.get(2).map(|x|x.parse().unwrap()).unwrap_or(0);
  let cost=if cost==0{1i128<<40}else{cost};
  let turns:usize=a.get(3).map(|x|x.parse().unwrap()).unwrap_or(0);
  let vt=std::env::var("VT").is_ok();
  let (mut n,mut q,mut depot)=(0u64,0u64,1u64);let mut req=vec![];let mut non=vec![];
  for l in t.lines(){let v=nums(l);
    if l.starts_with("VERTICES"){n=v[0]} else if l.starts_with("CAPACIDAD"){q=v[0]} else if l.starts_with("DEPOSITO"){depot=v[0]}
    else if l.trim_start().starts_with('('){ if l.contains("demanda"){req.push(RawEdge{u:v[0],v:v[1],cost:v[2],demand:v[3],service:v[2]})}else{non.push(RawEdge{u:v[0],v:v[1],cost:v[2],demand:0,service:0})}}}
  let g=Global;
  let inst=Instance::build(g,n,depot,q,&req,&non).ok().unwrap();
  let pool=cut_pool::ShorePool::new(g);
  let dist=task_tours::cost_distances(g,&inst).ok().unwrap();
  let plan=Branch::new(g).fixed_plan(g,&inst,&pool,&dist).ok().unwrap();
  let mut advisers:Vec<Box<dyn leaf_adviser::Adviser>>=Vec::new(g);
  advisers.push(Box::new(shore_prices::ShoreAdviser)).ok();advisers.push(Box::new(price_ascent::AscentAdviser)).ok();advisers.push(Box::new(leaf_programs::LeafPrograms::new(g))).ok();
  let t0=now();
  let mut search=branch_tree::Search::begin(g,&inst,turns as u64,plan).ok().unwrap();
  search.cost=cost as u64; search.done=search.tree.turns(search.cost) as u64;
  let first=search.tree.shown(search.cost);let mut root=0;let mut troot=0.0;let mut steps=0;
  let limit:f64=std::env::var("LIMIT").ok().map(|x|x.parse().unwrap()).unwrap_or(1e9);
  while search.done()<search.budget()&&now()-t0-troot<limit{
    let t1=now();let turn=search.step_with(&inst,&mut advisers).ok().unwrap();if turn==branch_tree::Turn::Done{break}
    steps+=1;if search.take_plan(&inst,&mut advisers).ok().unwrap(){println!("  step {} takes a plan of cost {}",steps,search.cost)}
    if steps==1{root=search.tree.shown(search.cost);troot=now()-t0;}
    if vt{eprintln!("{} turns {} shows {} nodes {} sets {} {:.2} s",steps,search.done(),search.tree.shown(search.cost),search.tree.len(),search.sets.len(),now()-t1)}
  }
  let b=search.tree.shown(search.cost);
  println!("{} floors {} root {} ({:.2} s with the first split) turns {} steps {} bound {} of {} {} all {:.2} s",a[1].rsplit('/').next().unwrap(),first,root,troot,search.done(),steps,b,search.cost,if b>=search.cost{"PROVED"}else{"open"},now()-t0);
}
