import re,os,sys
ROOT=sys.argv[1].rstrip('/')+'/crates/'
OUT=sys.argv[2].rstrip('/')+'/'
CR='carp_base plan_model road_network flow_cut deadhead_paths cut_pool edge_components capacity_cuts blossom_match matching_duals shore_program set_search shore_search task_tours route_pricing decision_chains branch_rules tight_prices shore_prices price_points price_ascent group_search linear_program column_generation leaf_programs packing_trees leaf_adviser dual_master grown_trees branch_tree helper_frame ruin_recreate local_moves path_scanning augment_merge giant_split fleet_pack parity_cuts postman group_plans cert_lines cert_format cert_checker carp_outside instance_edits tree_transfer cert_transfer town_maker dat_text plan_print helper_rounds progress carp_engine command_line command_inputs command_outputs carp_cli'.split()
SKIP={'command_line/grammar.rt','command_line/words.rt','carp_cli/dir_shelf.rt','carp_cli/std_sink.rt','carp_cli/terminal.rt','carp_outside/mem_file.rt','carp_outside/mem_files.rt','carp_outside/mem_shelf.rt','carp_outside/mem_sink.rt','carp_outside/calls.rt'}
def strip_block(s,start_re):
    while True:
        m=re.search(start_re,s,re.M)
        if not m: return s
        i=s.index('{',m.end()-1) if s[m.end()-1]!='{' else m.end()-1
        d=0;j=i
        while True:
            if s[j]=='{':d+=1
            elif s[j]=='}':
                d-=1
                if d==0:break
            j+=1
        s=s[:m.start()]+s[j+1:]
def conv(s,crate):
    if os.environ.get('DBG'): s=re.sub(r'^\s*//DBG ','',s,flags=re.M)
    s=re.sub(r'^\s*ghost use [^;]*;\n','',s,flags=re.M)
    s=strip_block(s,r'^impl(<[^>]*>)? Model for [^\n{]*\{')
    # clauses
    out=[];lines=s.split('\n');k=0
    while k<len(lines):
        l=lines[k]
        if re.match(r'^\s*(requires|ensures)\*?(\s+\w+)?\s*\{',l) or re.match(r'^\s*ghost \w+\s*[:=]\s*\{',l) or re.match(r'^\s*pub ghost \w+\s*[:=]\s*\{',l):
            d=0;first=l
            while True:
                d+=lines[k].count('{')-lines[k].count('}')
                if d<=0:break
                k+=1
            if lines[k].rstrip().endswith(';') and re.match(r'^\s*(requires|ensures)',first): out[-1]+=';'
            k+=1;continue
        out.append(l);k+=1
    s='\n'.join(out)
    s=re.sub(r'^#!?\[tactic\(.*\)\]\n','',s,flags=re.M)
    s=re.sub(r'^\s*#\[tactic\(.*\)\]\n','',s,flags=re.M)
    s=re.sub(r'^\s*#\[error\(.*\)\]\n','',s,flags=re.M)
    s=re.sub(r'^\s*#\[from\]\n','',s,flags=re.M)
    def der(m):
        xs=[x.strip() for x in m.group(1).split(',')]
        xs=[x for x in xs if x not in('Drop','Error','thiserror::Error')]
        return '#[derive(%s)]'%', '.join(xs) if xs else ''
    s=re.sub(r'#\[derive\(([^)]*)\)\]',der,s)
    s=re.sub(r'^use thiserror::Error;\n','',s,flags=re.M)
    s=re.sub(r'vec!\[in ([\w.()]+);','vec_in![$A \\1;',s).replace('$A ','')
    s=re.sub(r'^use std::marker::Model;\n','',s,flags=re.M)
    s=re.sub(r'use std::alloc::','use crate::shim::',s)
    s=re.sub(r'use std::collections::HashMap;','use crate::shim::HashMap;',s)
    s=re.sub(r'use indexmap::IndexSet;','use crate::shim::IndexSet;',s)
    s=re.sub(r'use rand_pcg::Lcg64Xsh32;','use crate::shim::Lcg64Xsh32;',s)
    s=re.sub(r'use rand_core::[^;]*;\n','',s)
    s=re.sub(r'\b(itoa|arrayvec)::',r'crate::shim::\1::',s)
    s=re.sub(r'#\[cfg\(test\)\]\n\s*mod \w+;\n','',s)
    i=s.find('#[cfg(test)]')
    if i>=0: s=s[:i]
    s=re.sub(r'\bcrate::(?!shim)',f'crate::{crate}::',s)
    for c in CR:
        s=re.sub(r'(?<![\w:])'+c+r'::','crate::'+c+'::',s)
    s=re.sub(r'fn fmt<W: fmt::Write>\(&self, f: &mut fmt::Formatter<W>\)','fn fmt(&self, f: &mut fmt::Formatter)',s)
    s=re.sub(r'format!\(in (\w+);','fmt_in!(',s)
    s=s.replace('crate::crate::','crate::').replace(f'crate::{crate}::shim','crate::shim')
    s=re.sub(r'(trait \w+(?:<[^>]*>)?): Drop ',r'\1 ',s)
    s=re.sub(r'<(\w+): Drop>',r'<\1>',s); s=re.sub(r' \+ Drop\b','',s); s=re.sub(r': Drop \+ ',': ',s)
    s=re.sub(r'\.sort_unstable(?=\(|_by_key\()','.sort_as_rattle',s)
    s=s.replace('.collect(alloc)?','.collect_in()?'); s=s.replace('use std::collections::BinaryHeap;','use crate::shim::BinaryHeap;'); s=re.sub(r'<(\w+): Drop, ',r'<\1, ',s); s=re.sub(r', (\w+): Drop>',r', \1>',s)
    s=re.sub(r'^//!.*\n','',s,flags=re.M)
    return s.replace('RUNNOW()','crate::run::now()')
CALLED=[]
def top_parts(s):
    parts=[];d=0;cur=''
    for ch in s:
        if ch in '<([': d+=1
        if ch in '>)]': d-=1
        if ch==',' and d==0: parts.append(cur.strip());cur=''
        else: cur+=ch
    parts.append(cur.strip()); return parts
def switched(s,crate,file):
    out='';at=0
    for m in re.finditer(r'^( *)(?:pub fn (\w+)|fn (propose|prices|split|find)(?=\())',s,re.M):
        if m.start()<at: continue
        i=s.index('(',m.end()); d=0;j=i
        while True:
            if s[j] in '(': d+=1
            if s[j] in ')':
                d-=1
                if d==0: break
            j+=1
        k=s.find('{',j); semi=s.find(';',j)
        if k<0 or (semi>=0 and semi<k): continue
        sig=s[j+1:k]
        r=re.search(r'->\s*Result<(.*)>\s*(where.*)?$',sig.strip(),re.S)
        if not r: continue
        e=top_parts(r[1])[-1]
        if e=='Memory': err='crate::carp_base::Memory'
        elif e.startswith('Fail<'): err='crate::carp_base::Fail::Memory'
        elif e=='AllocError': err='crate::shim::AllocError'
        else: continue
        n=len(CALLED); impl=re.findall(r'^impl(?:<[^{]*?>)? ([^{]*?) *\{',s[:m.start()],re.M)
        CALLED.append(f"{crate}/{file}:{m[2] or m[3]}" + (f" ({impl[-1]})" if m[1] and impl else ''))
        out+=s[at:k+1]+f' if crate::shim::gives_up({n}) {{ return Err({err}); }}'; at=k+1
    return out+s[at:]
for c in CR:
    os.makedirs(OUT+c,exist_ok=True)
    for f in os.listdir(ROOT+c+'/src'):
        if not f.endswith('.rt') or c+'/'+f in SKIP:continue
        s=conv(open(ROOT+c+'/src/'+f).read(),c)
        if f=='examples.rt' or f.endswith('_examples.rt') : s=''
        if c=='route_pricing' and f=='table.rt': s=s.replace('        self.grid\n            .copy_from','        crate::run::FILLS.fetch_add(1,std::sync::atomic::Ordering::Relaxed);\n        self.grid\n            .copy_from',1)
        if f=='lib.rt':
            for k in SKIP:
                if k.startswith(c+'/'): s=re.sub(r'^(pub )?mod '+k.split('/')[1][:-3]+r';\n','',s,flags=re.M); s=re.sub(r'^pub use '+k.split('/')[1][:-3]+r'::[^;]*;\n','',s,flags=re.M)
        if f!='lib.rt': s=switched(s,c,f)
        name='mod.rs' if f=='lib.rt' else f[:-3]+'.rs'
        open(OUT+c+'/'+name,'w').write('#[allow(unused_imports)]\nuse crate::shim::*;\n'+s)
HERE=os.path.dirname(os.path.realpath(__file__))
with open(OUT+'command_line/mod.rs','a') as words: words.write(open(HERE+'/words.rs').read())
main='#![allow(warnings)]\n#[macro_use]\nmod shim;\n'+''.join(f'pub mod {c};\n' for c in CR)+'mod run;\nfn main(){run::main()}\n'
open(OUT+'main.rs','w').write(main)

open(OUT+'calls.txt','w').write('\n'.join(CALLED)+'\n')
