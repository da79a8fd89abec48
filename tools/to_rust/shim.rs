pub use std::ops::{Deref,DerefMut};
#[derive(Clone,Copy,Debug,PartialEq,Eq)] pub struct Global;
#[derive(Clone,Copy,Debug,PartialEq,Eq)] pub struct AllocError;
pub struct AllocFailed<T>{pub value:T}
impl<T> std::fmt::Debug for AllocFailed<T>{fn fmt(&self,f:&mut std::fmt::Formatter)->std::fmt::Result{f.write_str("AllocFailed")}}
impl<T> From<AllocFailed<T>> for AllocError{fn from(_:AllocFailed<T>)->Self{AllocError}}
pub trait Allocator{} impl Allocator for Global{}
#[derive(Debug,PartialEq,Eq,PartialOrd,Ord,Hash,Clone)] pub struct Vec<T>(pub std::vec::Vec<T>);
impl<T> Deref for Vec<T>{type Target=[T];fn deref(&self)->&[T]{&self.0}}
impl<T> DerefMut for Vec<T>{fn deref_mut(&mut self)->&mut [T]{&mut self.0}}
impl<T> Vec<T>{
 pub fn new(_:Global)->Self{Vec(vec![])}
 pub fn with_capacity(_:Global,n:usize)->Result<Self,AllocError>{Ok(Vec(std::vec::Vec::with_capacity(n)))}
 pub fn push(&mut self,x:T)->Result<(),AllocFailed<T>>{self.0.push(x);Ok(())}
 pub fn pop(&mut self)->Option<T>{self.0.pop()}
 pub fn len(&self)->usize{self.0.len()}
 pub fn is_empty(&self)->bool{self.0.is_empty()}
 pub fn as_slice(&self)->&[T]{&self.0}
 pub fn as_mut_slice(&mut self)->&mut [T]{&mut self.0}
 pub fn truncate(&mut self,n:usize){self.0.truncate(n)}
 pub fn clear(&mut self){self.0.clear()}
 pub fn remove(&mut self,i:usize)->T{self.0.remove(i)}
 pub fn swap_remove(&mut self,i:usize)->T{self.0.swap_remove(i)}
 pub fn insert(&mut self,i:usize,x:T)->Result<(),AllocFailed<T>>{self.0.insert(i,x);Ok(())}
 pub fn reserve(&mut self,n:usize)->Result<(),AllocError>{self.0.reserve(n);Ok(())}
 pub fn allocator(&self)->&Global{&Global}
 pub fn drain_all(&mut self){self.0.clear()}
 pub fn retain<F:FnMut(&T)->bool>(&mut self,f:F){self.0.retain(f)}
}
impl<T:Clone> Vec<T>{
 pub fn from_slice(_:Global,s:&[T])->Result<Self,AllocError>{Ok(Vec(s.to_vec()))}
 pub fn extend_from_slice(&mut self,s:&[T])->Result<(),AllocError>{self.0.extend_from_slice(s);Ok(())}
 pub fn resize(&mut self,n:usize,x:T)->Result<(),AllocError>{self.0.resize(n,x);Ok(())}
}
impl<T:Ord> Vec<T>{pub fn sort(&mut self)->Result<(),AllocError>{self.0.sort();Ok(())}}
impl<T> Vec<T>{pub fn sort_by_key<K:Ord,F:FnMut(&T)->K>(&mut self,f:F)->Result<(),AllocError>{self.0.sort_by_key(f);Ok(())}}
impl<T> IntoIterator for Vec<T>{type Item=T;type IntoIter=std::vec::IntoIter<T>;fn into_iter(self)->Self::IntoIter{self.0.into_iter()}}
impl<'a,T> IntoIterator for &'a Vec<T>{type Item=&'a T;type IntoIter=std::slice::Iter<'a,T>;fn into_iter(self)->Self::IntoIter{self.0.iter()}}
impl<'a,T> IntoIterator for &'a mut Vec<T>{type Item=&'a mut T;type IntoIter=std::slice::IterMut<'a,T>;fn into_iter(self)->Self::IntoIter{self.0.iter_mut()}}
#[macro_export] macro_rules! vec_in{($a:expr;$x:expr;$n:expr)=>{{let _=$a;std::result::Result::<crate::shim::Vec<_>,crate::shim::AllocError>::Ok(crate::shim::Vec(vec![$x;$n]))}};($a:expr;$($x:expr),*$(,)?)=>{{let _=$a;std::result::Result::<crate::shim::Vec<_>,crate::shim::AllocError>::Ok(crate::shim::Vec(vec![$($x),*]))}};}
pub struct HashMap<K,V>(pub std::collections::HashMap<K,V>);
impl<K:Eq+std::hash::Hash,V> HashMap<K,V>{pub fn new(_:Global)->Self{HashMap(Default::default())} pub fn get(&self,k:&K)->Option<&V>{self.0.get(k)} pub fn insert(&mut self,k:K,v:V)->Result<Option<V>,AllocFailed<(K,V)>>{Ok(self.0.insert(k,v))}}
pub struct IndexSet<K>(pub std::vec::Vec<K>);
impl<K:Eq> IndexSet<K>{pub fn new(_:Global)->Self{IndexSet(vec![])} pub fn len(&self)->usize{self.0.len()} pub fn get_index_of(&self,k:&K)->Option<usize>{self.0.iter().position(|x|x==k)} pub fn insert(&mut self,k:K)->Result<bool,AllocFailed<K>>{self.0.push(k);Ok(true)} }
impl<K> std::ops::Index<usize> for IndexSet<K>{type Output=K;fn index(&self,i:usize)->&K{&self.0[i]}}
pub struct Lcg64Xsh32{s:u64,i:u64}
impl Lcg64Xsh32{pub fn new(state:u64,stream:u64)->Self{let i=(stream<<1)|1;let mut r=Lcg64Xsh32{s:0,i};r.s=state.wrapping_add(i);r.s=r.s.wrapping_mul(6364136223846793005).wrapping_add(i);r}
 pub fn next_u32(&mut self)->u32{let o=self.s;self.s=o.wrapping_mul(6364136223846793005).wrapping_add(self.i);let x=(((o>>18)^o)>>27) as u32;x.rotate_right((o>>59) as u32)} pub fn next_word(&mut self)->u32{self.next_u32()} pub fn next_u64(&mut self)->u64{let a=self.next_u32() as u64;let b=self.next_u32() as u64;a|(b<<32)} }
pub trait CollectIn:Iterator+Sized{fn collect_in(self)->Result<Vec<Self::Item>,AllocError>{Ok(Vec(self.collect()))}}
impl<I:Iterator> CollectIn for I{}

pub struct BinaryHeap<T>(pub std::collections::BinaryHeap<T>);
impl<T:Ord> BinaryHeap<T>{pub fn new(_:Global)->Self{BinaryHeap(Default::default())} pub fn push(&mut self,x:T)->Result<(),AllocFailed<T>>{self.0.push(x);Ok(())} pub fn pop(&mut self)->Option<T>{self.0.pop()} pub fn len(&self)->usize{self.0.len()} pub fn is_empty(&self)->bool{self.0.is_empty()}}
pub mod itoa{ pub struct Buffer(String); impl Buffer{pub fn new()->Self{Buffer(String::new())} pub fn format<T:std::fmt::Display>(&mut self,n:T)->&str{self.0=n.to_string();&self.0}} pub trait Integer:std::fmt::Display+Copy{} impl Integer for u8{} impl Integer for u32{} impl Integer for u64{} impl Integer for u128{} impl Integer for i64{} impl Integer for i128{} impl Integer for usize{} impl Integer for i32{} }
pub mod arrayvec{ #[derive(Debug,Clone,PartialEq,Eq)] pub struct ArrayVec<T,const N:usize>(pub std::vec::Vec<T>); impl<T,const N:usize> ArrayVec<T,N>{pub fn new()->Self{ArrayVec(vec![])} pub fn push(&mut self,x:T){self.0.push(x)} pub fn try_push(&mut self,x:T)->Result<(),T>{if self.0.len()<N{self.0.push(x);Ok(())}else{Err(x)}} pub fn len(&self)->usize{self.0.len()} pub fn is_full(&self)->bool{self.0.len()==N} pub fn is_empty(&self)->bool{self.0.is_empty()} pub fn clear(&mut self){self.0.clear()} pub fn as_slice(&self)->&[T]{&self.0}} impl<T,const N:usize> std::ops::Deref for ArrayVec<T,N>{type Target=[T];fn deref(&self)->&[T]{&self.0}} impl<T,const N:usize> std::ops::DerefMut for ArrayVec<T,N>{fn deref_mut(&mut self)->&mut [T]{&mut self.0}} }
#[derive(Debug,Clone,PartialEq,Eq,PartialOrd,Ord,Hash)] pub struct String(pub std::string::String);
impl String{pub fn new(_:Global)->Self{String(Default::default())} pub fn from_str(_:Global,s:&str)->Result<Self,AllocError>{Ok(String(s.to_string()))} pub fn push_str(&mut self,s:&str)->Result<(),AllocError>{self.0.push_str(s);Ok(())} pub fn push(&mut self,c:char)->Result<(),AllocError>{self.0.push(c);Ok(())} pub fn as_str(&self)->&str{&self.0} pub fn as_bytes(&self)->&[u8]{self.0.as_bytes()} pub fn into_bytes(self)->Vec<u8>{Vec(self.0.into_bytes())} pub fn write_fmt(&mut self,a:std::fmt::Arguments)->Result<(),AllocError>{self.0.push_str(&a.to_string());Ok(())} pub fn is_empty(&self)->bool{self.0.is_empty()}}
impl std::ops::Deref for String{type Target=str;fn deref(&self)->&str{&self.0}}
impl std::fmt::Display for String{fn fmt(&self,f:&mut std::fmt::Formatter)->std::fmt::Result{f.write_str(&self.0)}}
#[macro_export] macro_rules! fmt_in{($($x:tt)*)=>{std::result::Result::<crate::shim::String,crate::shim::AllocError>::Ok(crate::shim::String(format!($($x)*)))};}
pub const CALLS: usize = 2000;
static REACHED: [std::sync::atomic::AtomicBool; CALLS] = [const { std::sync::atomic::AtomicBool::new(false) }; CALLS];
static GIVEN: std::sync::OnceLock<usize> = std::sync::OnceLock::new();
pub fn gives_up(call: usize) -> bool {
    REACHED[call].store(true, std::sync::atomic::Ordering::Relaxed);
    *GIVEN.get_or_init(|| std::env::var("GIVES_UP").ok().map(|x| x.parse().unwrap()).unwrap_or(usize::MAX)) == call
}
pub fn list_reached() {
    if let Ok(name) = std::env::var("REACHED") {
        let mut text = std::string::String::new();
        for i in 0..CALLS { if REACHED[i].load(std::sync::atomic::Ordering::Relaxed) { text.push_str(&format!("{i}\n")); } }
        use std::io::Write;
        std::fs::OpenOptions::new().append(true).create(true).open(name).unwrap().write_all(text.as_bytes()).unwrap();
    }
}
#[path = "sorting.rs"]
mod sorting;
pub use sorting::SortAsRattle;
