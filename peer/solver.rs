// A solver of another make, to set beside the proved programs: the covered part by Zielonka's recursion on a parity
// game, the numbers by their definitions with counters and work lists. Plain Rust, no dependency.
//
// `solver list` reads a table and prints its listing, `solver book` writes the book's bytes, `solver verify` reads a
// table and a book and prints the check's answer, `solver drill FLOOR` plays a script of calls on the planned floor.
use std::io::{Read, Write};

struct Site {
    grade: Vec<u8>,
    commands: Vec<usize>,
    events: Vec<usize>,
    arrows: Vec<Vec<usize>>,
}

type Refusal = (usize, usize);

#[derive(Clone, Copy)]
enum Leaf {
    Covered(u8, u16),
    Open(u16, u16),
}

impl Site {
    fn len(&self) -> usize {
        self.grade.len()
    }

    fn next(&self, s: usize, a: usize, b: usize) -> usize {
        self.arrows[s][a * self.events[s] + b]
    }

    fn count(&self, grade: u8) -> usize {
        self.grade.iter().filter(|g| **g == grade).count()
    }
}

// A cursor over bytes that knows where the present record began.
struct Cursor<'a> {
    bytes: &'a [u8],
    at: usize,
}

impl Cursor<'_> {
    fn record(&mut self, kind: u8, body: usize) -> Result<Vec<u8>, Refusal> {
        let start = self.at;
        let rest = &self.bytes[start..];
        let Some(first) = rest.first() else { return Err((1, start)) };
        if *first != kind {
            return Err((2, start));
        }
        if rest.len() < 1 + body {
            return Err((1, start));
        }
        self.at = start + 1 + body;
        Ok(rest[1..1 + body].to_vec())
    }
}

fn word(body: &[u8]) -> usize {
    body[0] as usize * 256 + body[1] as usize
}

// The table at the front of the bytes, and where it ends.
fn parse_table(bytes: &[u8]) -> Result<(Site, usize), Refusal> {
    let mut cursor = Cursor { bytes, at: 0 };
    let n = word(&cursor.record(0x01, 2)?);
    if n == 0 || n > 1024 {
        return Err((3, 0));
    }
    let mut site = Site { grade: vec![], commands: vec![], events: vec![], arrows: vec![] };
    let mut total = 0;
    for _ in 0..n {
        let start = cursor.at;
        let row = cursor.record(0x02, 3)?;
        if row[0] > 2 {
            return Err((4, start));
        }
        if row[1] == 0 || row[1] > 16 || row[2] == 0 || row[2] > 16 {
            return Err((5, start));
        }
        let many = row[1] as usize * row[2] as usize;
        total += many;
        if total > 16384 {
            return Err((6, start));
        }
        let mut aims = vec![];
        for _ in 0..many {
            let start = cursor.at;
            let aim = word(&cursor.record(0x03, 2)?);
            if aim >= n {
                return Err((7, start));
            }
            aims.push(aim);
        }
        site.grade.push(row[0]);
        site.commands.push(row[1] as usize);
        site.events.push(row[2] as usize);
        site.arrows.push(aims);
    }
    Ok((site, cursor.at))
}

// The turn-based game: node s is the controller's choice of a command, node (s, a) the floor's choice of an event.
struct Game {
    owner_floor: Vec<bool>,
    priority: Vec<u8>,
    after: Vec<Vec<usize>>,
    before: Vec<Vec<usize>>,
}

fn game(site: &Site) -> Game {
    let n = site.len();
    let mut g = Game { owner_floor: vec![false; n], priority: vec![], after: vec![vec![]; n], before: vec![] };
    // confirmed 2, doubted 1, ordinary 0: the greatest that comes for ever decides, even for the controller
    g.priority = site.grade.iter().map(|x| match x { 0 => 2, 1 => 1, _ => 0 }).collect();
    for s in 0..n {
        for a in 0..site.commands[s] {
            let node = g.owner_floor.len();
            g.owner_floor.push(true);
            g.priority.push(0);
            g.after.push((0..site.events[s]).map(|b| site.next(s, a, b)).collect());
            g.after[s].push(node);
        }
    }
    g.before = vec![vec![]; g.after.len()];
    for (v, outs) in g.after.iter().enumerate() {
        for w in outs {
            g.before[*w].push(v);
        }
    }
    g
}

// The nodes of `alive` from which the player (the floor or not) can force a visit to `target`.
fn attract(g: &Game, alive: &[bool], floor: bool, target: &[bool]) -> Vec<bool> {
    let mut reached: Vec<bool> = (0..alive.len()).map(|v| alive[v] && target[v]).collect();
    let mut left: Vec<usize> = (0..alive.len()).map(|v| g.after[v].iter().filter(|w| alive[**w]).count()).collect();
    let mut list: Vec<usize> = (0..alive.len()).filter(|v| reached[*v]).collect();
    while let Some(w) = list.pop() {
        for &v in &g.before[w] {
            if !alive[v] || reached[v] {
                continue;
            }
            left[v] -= 1;
            if g.owner_floor[v] == floor || left[v] == 0 {
                reached[v] = true;
                list.push(v);
            }
        }
    }
    reached
}

// Zielonka: the nodes of `alive` that the controller wins.
fn zielonka(g: &Game, alive: &[bool]) -> Vec<bool> {
    let Some(top) = (0..alive.len()).filter(|v| alive[*v]).map(|v| g.priority[v]).max() else {
        return vec![false; alive.len()];
    };
    if top == 0 {
        return alive.to_vec();
    }
    let floor = top == 1;
    let target: Vec<bool> = (0..alive.len()).map(|v| alive[v] && g.priority[v] == top).collect();
    let a = attract(g, alive, floor, &target);
    let rest: Vec<bool> = (0..alive.len()).map(|v| alive[v] && !a[v]).collect();
    let won = zielonka(g, &rest);
    // what the player whose priority is not on top wins in the rest
    let lost: Vec<bool> = (0..alive.len()).map(|v| rest[v] && (won[v] == floor)).collect();
    if !lost.iter().any(|x| *x) {
        return (0..alive.len()).map(|v| alive[v] && !floor).collect();
    }
    let b = attract(g, alive, !floor, &lost);
    let smaller: Vec<bool> = (0..alive.len()).map(|v| alive[v] && !b[v]).collect();
    let inner = zielonka(g, &smaller);
    (0..alive.len()).map(|v| if b[v] { floor } else { inner[v] }).collect()
}

fn holds(site: &Site, set: &[bool], s: usize) -> bool {
    (0..site.commands[s]).any(|a| (0..site.events[s]).all(|b| set[site.next(s, a, b)]))
}

fn blocks(site: &Site, set: &[bool], s: usize) -> bool {
    (0..site.commands[s]).all(|a| (0..site.events[s]).any(|b| set[site.next(s, a, b)]))
}

// Which states lead to a state, each once.
fn sources(site: &Site) -> Vec<Vec<usize>> {
    let mut before = vec![vec![]; site.len()];
    for s in 0..site.len() {
        for t in &site.arrows[s] {
            if before[*t].last() != Some(&s) {
                before[*t].push(s);
            }
        }
    }
    before
}

// The ranks: level after level, each the greatest set of states that keeps to it.
fn ranks(site: &Site, covered: &[bool]) -> Vec<u16> {
    let before = sources(site);
    let mut rank = vec![0u16; site.len()];
    let mut level = vec![false; site.len()];
    for k in 0..=site.len() {
        // start from all covered states that the fixed parts allow, and take out what fails until nothing does
        let mut kept: Vec<bool> = (0..site.len())
            .map(|s| match site.grade[s] {
                0 => holds(site, covered, s),
                1 => holds(site, &level, s),
                _ => true,
            })
            .collect();
        let mut list: Vec<usize> = (0..site.len()).filter(|s| site.grade[*s] == 2).collect();
        // what a confirmed or doubted state took out at the start is seen when the list comes to its sources
        while let Some(s) = list.pop() {
            if kept[s] && !holds(site, &kept, s) {
                kept[s] = false;
                list.extend(before[s].iter().filter(|p| site.grade[**p] == 2 && kept[**p]));
            }
        }
        let mut grew = false;
        for s in 0..site.len() {
            if kept[s] && !level[s] {
                rank[s] = k as u16;
                grew = true;
            }
        }
        level = kept;
        if !grew {
            break;
        }
    }
    rank
}

// The states that the floor can bring to `goal` through ordinary states, with how many rounds it takes.
fn rounds(site: &Site, goal: &[bool], before: &[Vec<usize>]) -> Vec<Option<u16>> {
    let mut label: Vec<Option<u16>> = goal.iter().map(|g| if *g { Some(0) } else { None }).collect();
    let mut front: Vec<usize> = (0..site.len()).filter(|s| goal[*s]).collect();
    let mut j = 1;
    while !front.is_empty() {
        let set: Vec<bool> = label.iter().map(|l| l.is_some()).collect();
        let mut tried = vec![false; site.len()];
        let mut next = vec![];
        for t in &front {
            for &s in &before[*t] {
                if site.grade[s] == 2 && label[s].is_none() && !tried[s] {
                    tried[s] = true;
                    if blocks(site, &set, s) {
                        next.push(s);
                    }
                }
            }
        }
        for s in &next {
            label[*s] = Some(j);
        }
        front = next;
        j += 1;
    }
    label
}

// First and second numbers, stage by stage; each stage is a game for infinitely many doubted states.
fn numbers(site: &Site) -> Vec<Option<(u16, u16)>> {
    let before = sources(site);
    let mut found: Vec<Option<(u16, u16)>> = vec![None; site.len()];
    let mut stage = vec![false; site.len()];
    for i in 0..=site.len() {
        let mut yes = vec![true; site.len()];
        let labels = loop {
            let goal: Vec<bool> = (0..site.len())
                .map(|s| match site.grade[s] {
                    0 => blocks(site, &stage, s),
                    1 => yes[s] && blocks(site, &yes, s),
                    _ => false,
                })
                .collect();
            let labels = rounds(site, &goal, &before);
            let smaller: Vec<bool> = labels.iter().map(|l| l.is_some()).collect();
            if smaller == yes {
                break labels;
            }
            yes = smaller;
        };
        let mut grew = false;
        for s in 0..site.len() {
            if yes[s] && !stage[s] {
                found[s] = Some((i as u16, labels[s].unwrap()));
                grew = true;
            }
        }
        stage = yes;
        if !grew {
            break;
        }
    }
    found
}

fn keeps(site: &Site, s: usize, here: Leaf, after: Leaf) -> bool {
    match (here, after) {
        (Leaf::Covered(_, r), Leaf::Covered(_, q)) => match site.grade[s] {
            0 => true,
            1 => q < r,
            _ => q <= r,
        },
        (Leaf::Open(u, w), Leaf::Open(x, y)) => match site.grade[s] {
            0 => x < u,
            1 => x <= u,
            _ => x < u || (x == u && y < w),
        },
        _ => false,
    }
}

fn solve(site: &Site) -> (Vec<Leaf>, Vec<Vec<u8>>) {
    let g = game(site);
    let won = zielonka(&g, &vec![true; g.after.len()]);
    let covered: Vec<bool> = won[..site.len()].to_vec();
    let rank = ranks(site, &covered);
    let pairs = numbers(site);
    let mut leaves: Vec<Leaf> = (0..site.len())
        .map(|s| match (covered[s], pairs[s]) {
            (true, None) => Leaf::Covered(0, rank[s]),
            (false, Some((u, w))) => Leaf::Open(u, w),
            _ => panic!("the parts disagree at {s}"),
        })
        .collect();
    let mut replies = vec![vec![]; site.len()];
    for s in 0..site.len() {
        match leaves[s] {
            Leaf::Covered(_, r) => {
                let a = (0..site.commands[s])
                    .find(|a| (0..site.events[s]).all(|b| keeps(site, s, leaves[s], leaves[site.next(s, *a, b)])))
                    .expect("a command");
                leaves[s] = Leaf::Covered(a as u8, r);
            }
            Leaf::Open(..) => {
                for a in 0..site.commands[s] {
                    let b = (0..site.events[s])
                        .find(|b| keeps(site, s, leaves[s], leaves[site.next(s, a, *b)]))
                        .expect("an event");
                    replies[s].push(b as u8);
                }
            }
        }
    }
    (leaves, replies)
}

fn list(site: &Site) -> String {
    let (leaves, replies) = solve(site);
    let covered = leaves.iter().filter(|l| matches!(l, Leaf::Covered(..))).count();
    let mut out = format!("states {} covered {} open {}\n", site.len(), covered, site.len() - covered);
    for (s, leaf) in leaves.iter().enumerate() {
        match leaf {
            Leaf::Covered(a, r) => out += &format!("{s} covered command {a} rank {r}\n"),
            Leaf::Open(u, w) => {
                out += &format!("{s} open pair {u} {w} events");
                for b in &replies[s] {
                    out += &format!(" {b}");
                }
                out += "\n";
            }
        }
    }
    out
}

fn book(site: &Site) -> Vec<u8> {
    let (leaves, replies) = solve(site);
    let two = |x: u16| [(x / 256) as u8, (x % 256) as u8];
    let mut out = vec![0x11];
    out.extend(two(site.len() as u16));
    for (s, leaf) in leaves.iter().enumerate() {
        match *leaf {
            Leaf::Covered(a, r) => {
                out.extend([0x12, a]);
                out.extend(two(r));
            }
            Leaf::Open(u, w) => {
                out.push(0x13);
                out.extend(two(u));
                out.extend(two(w));
                for b in &replies[s] {
                    out.extend([0x14, *b]);
                }
            }
        }
    }
    out
}

// Reads a book for the site and checks it.
fn verify(site: &Site, bytes: &[u8]) -> Result<(usize, usize), Refusal> {
    let mut cursor = Cursor { bytes, at: 0 };
    if word(&cursor.record(0x11, 2)?) != site.len() {
        return Err((3, 0));
    }
    let mut leaves = vec![];
    let mut replies = vec![vec![]; site.len()];
    for s in 0..site.len() {
        if bytes.get(cursor.at) == Some(&0x12) {
            let body = cursor.record(0x12, 3)?;
            leaves.push(Leaf::Covered(body[0], word(&body[1..]) as u16));
        } else {
            let body = cursor.record(0x13, 4)?;
            leaves.push(Leaf::Open(word(&body[0..]) as u16, word(&body[2..]) as u16));
            for _ in 0..site.commands[s] {
                let reply = cursor.record(0x14, 1)?;
                replies[s].push(reply[0] as usize);
            }
        }
    }
    if cursor.at < bytes.len() {
        return Err((8, cursor.at));
    }
    for s in 0..site.len() {
        let step = |t: usize| -> Result<(), Refusal> {
            if matches!(leaves[s], Leaf::Covered(..)) != matches!(leaves[t], Leaf::Covered(..)) {
                return Err((12, s));
            }
            if !keeps(site, s, leaves[s], leaves[t]) {
                return Err((13, s));
            }
            Ok(())
        };
        match leaves[s] {
            Leaf::Covered(a, r) => {
                if a as usize >= site.commands[s] {
                    return Err((10, s));
                }
                if r as usize > site.count(1) {
                    return Err((11, s));
                }
                for b in 0..site.events[s] {
                    step(site.next(s, a as usize, b))?;
                }
            }
            Leaf::Open(u, w) => {
                if u as usize > site.count(0) || w as usize > site.count(2) {
                    return Err((11, s));
                }
                for a in 0..site.commands[s] {
                    let b = replies[s][a];
                    if b >= site.events[s] {
                        return Err((10, s));
                    }
                    step(site.next(s, a, b))?;
                }
            }
        }
    }
    let covered = leaves.iter().filter(|l| matches!(l, Leaf::Covered(..))).count();
    Ok((covered, site.len() - covered))
}

// The answer of one call to a run that stands at `at`.
fn answer(site: &Site, plan: &(Vec<Leaf>, Vec<Vec<u8>>), at: Option<usize>, word: &str, number: usize) -> Result<usize, Refusal> {
    if word == "place" {
        return if number < site.len() { Ok(number) } else { Err((15, number)) };
    }
    let v = at.ok_or((14, 0))?;
    match (word, plan.0[v]) {
        ("book", Leaf::Covered(a, _)) if number < site.events[v] => Ok(site.next(v, a as usize, number)),
        ("objection", Leaf::Open(..)) if number < site.commands[v] => {
            Ok(site.next(v, number, plan.1[v][number] as usize))
        }
        ("book", Leaf::Covered(..)) | ("objection", Leaf::Open(..)) => Err((16, number)),
        _ => Err((17, v)),
    }
}

// Plays the script and counts on the run's list of states.
fn drill(site: &Site, script: &str) -> String {
    let plan = solve(site);
    let mut states: Vec<usize> = vec![];
    let mut out = String::new();
    for (i, line) in script.lines().enumerate() {
        let call = line.split_once(' ').and_then(|(word, rest)| Some((word, rest.parse::<usize>().ok()?)));
        let Some((word, number)) = call.filter(|(word, _)| ["place", "book", "objection"].contains(word)) else {
            return format!("line {} is no call: write place, book or objection and a number\n", i + 1);
        };
        match answer(site, &plan, states.last().copied(), word, number) {
            Ok(state) => {
                if word == "place" {
                    states.clear();
                }
                states.push(state);
                out += &format!("{word} {number}: state {state}\n");
            }
            Err((k, p)) => out += &format!("{word} {number}: refused {k} at {p}\n"),
        }
    }
    out += "run";
    for state in &states {
        out += &format!(" {state}");
    }
    out += "\n";
    if states.is_empty() {
        return out + "no run was placed\n";
    }
    let grades: Vec<u8> = states.iter().map(|s| site.grade[*s]).collect();
    let confirmations = grades.iter().filter(|g| **g == 0).count();
    let doubts = grades.iter().rev().take_while(|g| **g != 0).filter(|g| **g == 1).count();
    let row = grades.iter().rev().take_while(|g| **g == 2).count();
    out + &format!("confirmations {confirmations} doubts {doubts} row {row}\n")
}

fn run(mode: &str, bytes: &[u8]) -> Result<Vec<u8>, Refusal> {
    let (site, end) = parse_table(bytes)?;
    if mode == "verify" {
        let (covered, open) = verify(&site, &bytes[end..])?;
        return Ok(format!("accepted, covered {covered} open {open}\n").into_bytes());
    }
    if end < bytes.len() {
        return Err((8, end));
    }
    Ok(if mode == "book" { book(&site) } else { list(&site).into_bytes() })
}

fn main() {
    let mode = std::env::args().nth(1).unwrap_or_default();
    let mut bytes = vec![];
    std::io::stdin().read_to_end(&mut bytes).expect("input");
    if mode == "drill" {
        let floor = std::fs::read(std::env::args().nth(2).expect("a floor")).expect("the floor");
        let read = parse_table(&floor).and_then(|(site, end)| if end < floor.len() { Err((8, end)) } else { Ok(site) });
        let site = match read {
            Ok(site) => site,
            Err((number, place)) => {
                println!("refused {number} at {place}");
                std::process::exit(1);
            }
        };
        let out = drill(&site, &String::from_utf8_lossy(&bytes));
        print!("{out}");
        std::process::exit(if out.contains("is no call") { 1 } else { 0 });
    }
    let (out, status) = match run(&mode, &bytes) {
        Ok(out) => (out, 0),
        Err((number, place)) => (format!("refused {number} at {place}\n").into_bytes(), 1),
    };
    std::io::stdout().write_all(&out).expect("output");
    std::process::exit(status);
}
