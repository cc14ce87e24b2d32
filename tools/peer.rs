//! The yardstick of tools/bench: a plain Rust program, not verified, that does what `threev --mode sim` does on scripts
//! without strict trees, oldest letter first, or in the order that the seed draws which is its one word. It keeps the
//! whole history, makes the report from it alone, refuses nothing, and tells on standard error how many entries it had.
// (what a history keeps and no report reads)
#![allow(dead_code)]
use std::collections::{HashMap, VecDeque};
use std::io::{Read, Write};

#[derive(Clone, Copy, PartialEq)]
enum Kind {
    Sum,
    Top,
    Bag,
}
#[derive(Clone)]
enum Val {
    N(i128),
    Bag(Vec<i128>),
}
#[derive(Clone, Copy)]
enum Op {
    Add(i128),
    Top(i128),
    Put(i128),
    Get,
}
struct Sub {
    node: u8,
    ops: Vec<(u32, Op)>,
    kids: Vec<u32>,
}
struct Tree {
    name: String,
    read: bool,
    subs: Vec<Sub>,
}
enum Row {
    Tree(u32),
    Advance,
    Settle,
}
struct Item {
    name: String,
    node: u8,
    kind: Kind,
    init: i128,
}
type Vals = Vec<(u32, Val)>;
enum Body {
    Go,
    Root(u32),
    Sub(u32, u32, u64),
    Done(u32, u32, u64, Vals),
    Reply(u32, u64, Vals),
    Nudge,
    Advance,
    Turn(u64),
    Show(u64),
    Sweep(u64),
    Turned(u64),
    Shown(u64),
    Swept(u64),
    AskDone(u64, u64),
    AskAsked(u64, u64),
    DoneRow(u64, u64, Vec<u64>),
    AskedRow(u64, u64, Vec<u64>),
    Advanced(u64),
}
#[derive(Clone)]
enum Act {
    Born(u32, u64),
    Did(u32, u32, Vals),
    Turned(u64),
    Showed(u64),
    Swept(u64),
    Finished,
}
struct Letter {
    stamp: u64,
    place: u32,
    from: u8,
    to: u8,
    body: Body,
}
struct Entry {
    stamp: u64,
    actor: u8,
    took: Letter,
    sent: Vec<(u8, Body)>,
    acts: Vec<Act>,
}

fn apply(v: &mut Val, op: Op) {
    match (v, op) {
        (Val::N(x), Op::Add(a)) => *x += a,
        (Val::N(x), Op::Top(a)) => *x = (*x).max(a),
        (Val::Bag(b), Op::Put(a)) => {
            let i = b.partition_point(|y| *y <= a);
            b.insert(i, a);
        }
        _ => {}
    }
}
fn copy(b: &Body) -> Body {
    use Body::*;
    match b {
        Go => Go,
        Root(t) => Root(*t),
        Sub(t, s, v) => Sub(*t, *s, *v),
        Done(t, s, v, x) => Done(*t, *s, *v, x.clone()),
        Reply(t, v, x) => Reply(*t, *v, x.clone()),
        Nudge => Nudge,
        Advance => Advance,
        Turn(v) => Turn(*v),
        Show(v) => Show(*v),
        Sweep(v) => Sweep(*v),
        Turned(v) => Turned(*v),
        Shown(v) => Shown(*v),
        Swept(v) => Swept(*v),
        AskDone(v, k) => AskDone(*v, *k),
        AskAsked(v, k) => AskAsked(*v, *k),
        DoneRow(v, k, r) => DoneRow(*v, *k, r.clone()),
        AskedRow(v, k, r) => AskedRow(*v, *k, r.clone()),
        Advanced(v) => Advanced(*v),
    }
}

struct Node {
    p: u8,
    update: u64,
    read: u64,
    low: u64,
    items: HashMap<u32, Vec<(u64, Val)>>,
    c: HashMap<u64, (Vec<u64>, Vec<u64>)>,
    homes: HashMap<u32, (u32, Vec<Vals>)>,
}
impl Node {
    fn row(&mut self, v: u64, n: usize) -> &mut (Vec<u64>, Vec<u64>) {
        self.c.entry(v).or_insert_with(|| (vec![0; n], vec![0; n]))
    }
    fn seen(&self, it: u32, v: u64) -> Val {
        self.items[&it].iter().rev().find(|x| x.0 <= v).unwrap().1.clone()
    }
    fn touch(&mut self, it: u32, v: u64, op: Op) {
        let l = self.items.get_mut(&it).unwrap();
        let i = l.partition_point(|x| x.0 < v);
        if i == l.len() || l[i].0 != v {
            let b = l[i - 1].1.clone();
            l.insert(i, (v, b));
        }
        for x in &mut l[i..] {
            apply(&mut x.1, op);
        }
    }
    fn note(&mut self, t: u32, s: u32, v: u64, vals: Vals, cl: u8, out: &mut Vec<(u8, Body)>) {
        let h = self.homes.get_mut(&t).unwrap();
        h.0 -= 1;
        h.1[s as usize] = vals;
        if h.0 == 0 {
            let h = self.homes.remove(&t).unwrap();
            out.push((cl, Body::Reply(t, v, h.1.into_iter().flatten().collect())));
        }
    }
    fn step(&mut self, trees: &[Tree], n: usize, from: u8, b: &Body, acts: &mut Vec<Act>, out: &mut Vec<(u8, Body)>) {
        let (co, cl) = (n as u8, n as u8 + 1);
        let p = self.p;
        let (t, s, v, root) = match *b {
            Body::Root(t) => (t, 0, if trees[t as usize].read { self.read } else { self.update }, true),
            Body::Sub(t, s, v) => (t, s, v, false),
            Body::Done(t, s, v, ref x) => {
                self.row(v, n).1[from as usize] += 1;
                self.note(t, s, v, x.clone(), cl, out);
                return;
            }
            Body::Turn(v) => {
                if self.update < v {
                    self.update = v;
                    acts.push(Act::Turned(v))
                }
                out.push((co, Body::Turned(v)));
                return;
            }
            Body::AskDone(v, k) => {
                let r = self.row(v, n).1.clone();
                out.push((co, Body::DoneRow(v, k, r)));
                return;
            }
            Body::AskAsked(v, k) => {
                let r = self.row(v, n).0.clone();
                out.push((co, Body::AskedRow(v, k, r)));
                return;
            }
            Body::Show(v) => {
                self.read = v;
                acts.push(Act::Showed(v));
                out.push((co, Body::Shown(v)));
                return;
            }
            Body::Sweep(f) => {
                for l in self.items.values_mut() {
                    let i = l.partition_point(|x| x.0 <= f);
                    l.drain(..i - 1);
                    l[0].0 = f;
                }
                self.low = f;
                self.c.retain(|v, _| *v >= f);
                acts.push(Act::Swept(f));
                out.push((co, Body::Swept(f)));
                return;
            }
            _ => return,
        };
        let tree = &trees[t as usize];
        let sub = &tree.subs[s as usize];
        let mut vals = vec![];
        if root {
            acts.push(Act::Born(t, v));
            self.row(v, n).0[p as usize] += 1
        } else if !tree.read && self.update < v {
            self.update = v;
            acts.push(Act::Turned(v))
        }
        for &(it, op) in &sub.ops {
            if tree.read {
                vals.push((it, self.seen(it, v)))
            } else {
                self.touch(it, v, op)
            }
        }
        acts.push(Act::Did(t, s, vals.clone()));
        for &k in &sub.kids {
            let q = tree.subs[k as usize].node;
            self.row(v, n).0[q as usize] += 1;
            out.push((q, Body::Sub(t, k, v)))
        }
        if root {
            self.row(v, n).1[p as usize] += 1;
            self.homes.insert(t, (tree.subs.len() as u32, vec![vec![]; tree.subs.len()]));
            self.note(t, 0, v, vals, cl, out);
        } else {
            let h = tree.subs[0].node;
            self.row(v, n).0[h as usize] += 1;
            out.push((h, Body::Done(t, s, v, vals)));
            self.row(v, n).1[from as usize] += 1;
        }
    }
}
#[derive(PartialEq, Clone, Copy)]
enum Ph {
    Idle,
    Turning,
    Cu,
    Cr,
    Pu,
    Pr,
    Showing,
    Sweeping,
}
struct Coord {
    n: usize,
    u: u64,
    waits: u64,
    round: u64,
    ph: Ph,
    acks: usize,
    flag: bool,
    ver: u64,
    done: Vec<Vec<u64>>,
    asked: Vec<Vec<u64>>,
    d: usize,
    a: usize,
}
impl Coord {
    fn all(&self, out: &mut Vec<(u8, Body)>, f: impl Fn() -> Body) {
        for q in 0..self.n {
            out.push((q as u8, f()))
        }
    }
    fn begin(&mut self, v: u64, ph: Ph, out: &mut Vec<(u8, Body)>) {
        self.round += 1;
        self.ver = v;
        self.ph = ph;
        self.flag = false;
        self.d = 0;
        self.a = 0;
        let k = self.round;
        self.all(out, || Body::AskDone(v, k));
    }
    fn step(&mut self, from: u8, b: &Body, out: &mut Vec<(u8, Body)>) {
        let (u, cl) = (self.u, self.n as u8 + 1);
        match b {
            Body::Advance => {
                if self.ph == Ph::Idle {
                    self.ph = Ph::Turning;
                    self.acks = 0;
                    self.all(out, || Body::Turn(u + 1))
                } else {
                    self.waits += 1
                }
            }
            Body::Turned(_) => {
                self.acks += 1;
                if self.acks == self.n {
                    self.begin(u, Ph::Cu, out)
                }
            }
            Body::DoneRow(_, _, r) => {
                self.done[from as usize] = r.clone();
                self.d += 1;
                if self.d == self.n {
                    let (v, k) = (self.ver, self.round);
                    self.all(out, || Body::AskAsked(v, k))
                }
            }
            Body::AskedRow(_, _, r) => {
                self.asked[from as usize] = r.clone();
                self.a += 1;
                if self.a == self.n {
                    let yes = (0..self.n).all(|p| (0..self.n).all(|q| self.asked[p][q] == self.done[q][p]));
                    if yes {
                        self.acks = 0;
                        if self.ph == Ph::Cu {
                            self.ph = Ph::Showing;
                            self.all(out, || Body::Show(u))
                        } else {
                            self.ph = Ph::Sweeping;
                            self.all(out, || Body::Sweep(u))
                        }
                    } else if self.flag {
                        self.begin(self.ver, self.ph, out)
                    } else {
                        self.ph = if self.ph == Ph::Cu { Ph::Pu } else { Ph::Pr }
                    }
                }
            }
            Body::Nudge => match self.ph {
                Ph::Cu | Ph::Cr => self.flag = true,
                Ph::Pu => self.begin(self.ver, Ph::Cu, out),
                Ph::Pr => self.begin(self.ver, Ph::Cr, out),
                _ => {}
            },
            Body::Shown(_) => {
                self.acks += 1;
                if self.acks == self.n {
                    self.begin(u - 1, Ph::Cr, out)
                }
            }
            Body::Swept(_) => {
                self.acks += 1;
                if self.acks == self.n {
                    out.push((cl, Body::Advanced(u)));
                    self.u += 1;
                    if self.waits > 0 {
                        self.waits -= 1;
                        self.ph = Ph::Turning;
                        self.acks = 0;
                        self.all(out, || Body::Turn(u + 2))
                    } else {
                        self.ph = Ph::Idle
                    }
                }
            }
            _ => {}
        }
    }
}

fn main() {
    let mut text = String::new();
    std::io::stdin().read_to_string(&mut text).unwrap();
    let (mut n, mut items, mut trees, mut rows, mut adv) =
        (0usize, Vec::<Item>::new(), Vec::<Tree>::new(), Vec::<Row>::new(), 0u64);
    let mut names: HashMap<String, u32> = HashMap::new();
    let seed: Option<u64> = std::env::args().nth(1).map(|x| x.parse().unwrap());
    for line in text.lines() {
        let f: Vec<&str> = line.split(',').collect();
        match f[0] {
            "nodes" => n = f[1].parse().unwrap(),
            "item" => {
                names.insert(f[1].to_string(), items.len() as u32);
                items.push(Item {
                    name: f[1].into(),
                    node: f[2].parse().unwrap(),
                    kind: match f[3] {
                        "sum" => Kind::Sum,
                        "top" => Kind::Top,
                        _ => Kind::Bag,
                    },
                    init: f[4].parse().unwrap(),
                });
            }
            "update" | "read" => {
                rows.push(Row::Tree(trees.len() as u32));
                trees.push(Tree {
                    name: f[1].into(),
                    read: f[0] == "read",
                    subs: vec![Sub { node: f[2].parse().unwrap(), ops: vec![], kids: vec![] }],
                });
            }
            "sub" => {
                let t = trees.last_mut().unwrap();
                let k = t.subs.len() as u32;
                t.subs[f[1].parse::<usize>().unwrap()].kids.push(k);
                t.subs.push(Sub { node: f[2].parse().unwrap(), ops: vec![], kids: vec![] })
            }
            "advance" => {
                adv += 1;
                rows.push(Row::Advance)
            }
            "settle" => rows.push(Row::Settle),
            w => {
                let it = names[f[1]];
                let a: i128 = if w == "get" { 0 } else { f[2].parse().unwrap() };
                let op = match w {
                    "add" => Op::Add(a),
                    "top" => Op::Top(a),
                    "put" => Op::Put(a),
                    _ => Op::Get,
                };
                trees.last_mut().unwrap().subs.last_mut().unwrap().ops.push((it, op));
            }
        }
    }
    let mut nodes: Vec<Node> = (0..n)
        .map(|p| Node {
            p: p as u8,
            update: 1,
            read: 0,
            low: 0,
            c: HashMap::new(),
            homes: HashMap::new(),
            items: items
                .iter()
                .enumerate()
                .filter(|x| x.1.node as usize == p)
                .map(|(i, x)| {
                    (i as u32, vec![(0, if x.kind == Kind::Bag { Val::Bag(vec![]) } else { Val::N(x.init) })])
                })
                .collect(),
        })
        .collect();
    let mut co = Coord {
        n,
        u: 1,
        waits: 0,
        round: 0,
        ph: Ph::Idle,
        acks: 0,
        flag: false,
        ver: 0,
        done: vec![vec![]; n],
        asked: vec![vec![]; n],
        d: 0,
        a: 0,
    };
    let (mut next, mut answered, mut nans, mut ended, mut sent_adv, mut fin, mut passed) =
        (0usize, vec![false; trees.len()], 0usize, 0u64, 0u64, false, 0usize);
    let (con, cln) = (n as u8, n as u8 + 1);
    let mut bag: VecDeque<Letter> = VecDeque::new();
    bag.push_back(Letter { stamp: 0, place: 0, from: cln, to: cln, body: Body::Go });
    let mut h: Vec<Entry> = vec![];
    let mut x = seed.unwrap_or(0);
    while !bag.is_empty() {
        let k = if seed.is_some() {
            x = x.wrapping_mul(6364136223846793005).wrapping_add(1442695040888963407);
            (x >> 33) as usize % bag.len()
        } else {
            0
        };
        let l = if k == 0 { bag.pop_front().unwrap() } else { bag.remove(k).unwrap() };
        let (mut acts, mut out) = (vec![], vec![]);
        if (l.to as usize) < n {
            nodes[l.to as usize].step(&trees, n, l.from, &l.body, &mut acts, &mut out)
        } else if l.to == con {
            co.step(l.from, &l.body, &mut out)
        } else {
            let mut go = false;
            match l.body {
                Body::Go => go = true,
                Body::Reply(t, _, _) => {
                    if !answered[t as usize] {
                        answered[t as usize] = true;
                        nans += 1
                    }
                    out.push((con, Body::Nudge));
                    go = true
                }
                Body::Advanced(_) => {
                    ended += 1;
                    go = true
                }
                _ => {}
            }
            if go {
                while next < rows.len() {
                    match rows[next] {
                        Row::Tree(t) => out.push((trees[t as usize].subs[0].node, Body::Root(t))),
                        Row::Advance => {
                            sent_adv += 1;
                            out.push((con, Body::Advance))
                        }
                        Row::Settle => {
                            while passed < next
                                && match rows[passed] {
                                    Row::Tree(t) => answered[t as usize],
                                    _ => true,
                                }
                            {
                                passed += 1
                            }
                            if passed < next || ended < sent_adv {
                                break;
                            }
                        }
                    }
                    next += 1;
                }
                if next == rows.len() && nans == trees.len() && ended >= adv && !fin {
                    fin = true;
                    acts.push(Act::Finished)
                }
            }
        }
        let stamp = h.len() as u64 + 1;
        for (i, (to, b)) in out.iter().enumerate() {
            bag.push_back(Letter { stamp, place: i as u32, from: l.to, to: *to, body: copy(b) })
        }
        h.push(Entry { stamp, actor: l.to, took: l, sent: out, acts });
    }
    assert!(fin);
    // the report, from the history alone
    let mut ver = vec![0u64; trees.len()];
    for e in &h {
        for a in &e.acts {
            if let Act::Born(t, v) = a {
                ver[*t as usize] = *v
            }
        }
    }
    let mut top: Vec<HashMap<u64, Val>> = (0..items.len()).map(|_| HashMap::new()).collect();
    let mut order: Vec<u32> = (0..trees.len() as u32).collect();
    order.sort_by_key(|t| ver[*t as usize]);
    let start = |i: usize| if items[i].kind == Kind::Bag { Val::Bag(vec![]) } else { Val::N(items[i].init) };
    let mut cur: Vec<Val> = (0..items.len()).map(start).collect();
    let mut i = 0;
    let mut reads: Vec<Option<String>> = vec![None; trees.len()];
    let show = |v: &Val| match v {
        Val::N(x) => x.to_string(),
        Val::Bag(b) => format!("{{{}}}", b.iter().map(|x| x.to_string()).collect::<Vec<_>>().join(",")),
    };
    let mut at_a: Vec<Val> = cur.clone();
    let mut taken_a = false;
    while i < order.len() || !taken_a {
        let v = if i < order.len() { ver[order[i] as usize] } else { adv + 1 };
        if v > adv && !taken_a {
            at_a = cur.clone();
            taken_a = true;
            if i >= order.len() {
                break;
            }
        }
        let j = i + order[i..].iter().take_while(|t| ver[**t as usize] == v).count();
        for &t in &order[i..j] {
            let t = &trees[t as usize];
            if !t.read {
                for s in &t.subs {
                    for &(it, op) in &s.ops {
                        apply(&mut cur[it as usize], op);
                        if v == adv + 1 {
                            top[it as usize].insert(v, Val::N(0));
                        }
                    }
                }
            }
        }
        for &t in &order[i..j] {
            let tr = &trees[t as usize];
            if tr.read {
                reads[t as usize] = Some(
                    tr.subs
                        .iter()
                        .flat_map(|s| s.ops.iter())
                        .map(|(it, _)| format!(" {}={}", items[*it as usize].name, show(&cur[*it as usize])))
                        .collect(),
                )
            }
        }
        i = j;
    }
    let mut o = String::new();
    for (t, tr) in trees.iter().enumerate() {
        if tr.read {
            o += &format!("read {} version {}{}\n", tr.name, ver[t], reads[t].as_ref().unwrap())
        } else {
            o += &format!("tree {} version {}\n", tr.name, ver[t])
        }
    }
    for p in 0..n {
        o += &format!("node {} update {} read {}\n", p, adv + 1, adv)
    }
    for (k, it) in items.iter().enumerate() {
        o += &format!("item {} {}:{}", it.name, adv, show(&at_a[k]));
        if !top[k].is_empty() {
            o += &format!(" {}:{}", adv + 1, show(&cur[k]))
        }
        o.push('\n');
    }
    std::io::stdout().write_all(o.as_bytes()).unwrap();
    eprintln!("entries {}", h.len());
    std::process::exit(0)
}
