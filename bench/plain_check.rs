// The work of the check on a sheet of agents alone, written as plain Rust without proofs, to compare times: every canonical instance of every
// `seal` line and role, the rank of each message in it, and how many instances there are. Reads a sheet that breaks no rule from standard input.
use std::io::Read;

#[derive(Clone, PartialEq)]
enum Term {
    Leaf(Field),
    Pair(Box<Term>, Box<Term>),
    Seal(Field, Field, Box<Term>),
}

#[derive(Clone, Copy, PartialEq)]
enum Field {
    Player,
    Variable(usize),
    Agent(u16),
}

enum Msg {
    Agent(u16),
    Pair(Box<Msg>, Box<Msg>),
    Seal(u16, u16, Box<Msg>),
}

struct Line {
    rank: i16,
    term: Term,
}

fn field(word: &str, variables: &[String], agents: &[String]) -> Field {
    if word == "self" {
        return Field::Player;
    }
    match variables.iter().position(|name| name == word) {
        Some(i) => Field::Variable(i),
        None => Field::Agent(agents.iter().position(|name| name == word).expect("a name") as u16),
    }
}

fn term<'a>(words: &mut impl Iterator<Item = &'a str>, variables: &[String], agents: &[String]) -> Term {
    match words.next().expect("a word") {
        "pair" => {
            let left = term(words, variables, agents);
            Term::Pair(Box::new(left), Box::new(term(words, variables, agents)))
        }
        "seal" => {
            let first = field(words.next().expect("an agent"), variables, agents);
            let second = field(words.next().expect("an agent"), variables, agents);
            Term::Seal(first, second, Box::new(term(words, variables, agents)))
        }
        word => Term::Leaf(field(word, variables, agents)),
    }
}

fn value(field: Field, player: u16, row: &[u16]) -> u16 {
    match field {
        Field::Player => player,
        Field::Variable(i) => row[i],
        Field::Agent(n) => n,
    }
}

fn message(term: &Term, player: u16, row: &[u16]) -> Msg {
    match term {
        Term::Leaf(f) => Msg::Agent(value(*f, player, row)),
        Term::Pair(l, r) => Msg::Pair(Box::new(message(l, player, row)), Box::new(message(r, player, row))),
        Term::Seal(f, g, t) => {
            let (a, b) = (value(*f, player, row), value(*g, player, row));
            Msg::Seal(a.min(b), a.max(b), Box::new(message(t, player, row)))
        }
    }
}

// What the free variables stand for so far.
type Settled = [Option<u16>; 5];

fn may_stand(field: Field, agent: u16, settled: &mut Settled) -> bool {
    match field {
        Field::Player => false,
        Field::Agent(n) => n == agent,
        Field::Variable(i) => *settled[i].get_or_insert(agent) == agent,
    }
}

fn gives(term: &Term, msg: &Msg, settled: &mut Settled) -> bool {
    match (term, msg) {
        (Term::Leaf(f), Msg::Agent(n)) => may_stand(*f, *n, settled),
        (Term::Pair(l, r), Msg::Pair(x, y)) => gives(l, x, settled) && gives(r, y, settled),
        (Term::Seal(f, g, t), Msg::Seal(a, b, m)) => {
            for (x, y) in [(*a, *b), (*b, *a)] {
                let mut tried = *settled;
                if may_stand(*f, x, &mut tried) && may_stand(*g, y, &mut tried) && gives(t, m, &mut tried) {
                    *settled = tried;
                    return true;
                }
            }
            false
        }
        _ => false,
    }
}

fn first_line(lines: &[Line], msg: &Msg) -> Option<usize> {
    lines.iter().position(|line| gives(&line.term, msg, &mut [None; 5]))
}

fn rank(lines: &[Line], msg: &Msg) -> i16 {
    match msg {
        Msg::Agent(_) => 1,
        Msg::Pair(l, r) => rank(lines, l).min(rank(lines, r)),
        Msg::Seal(_, _, m) => match first_line(lines, msg) {
            Some(i) => lines[i].rank,
            None => rank(lines, m),
        },
    }
}

// Calls the test for every canonical row of so many agents.
fn rows(named: u16, places: usize, next: u16, row: &mut Vec<u16>, test: &mut impl FnMut(&[u16])) {
    if row.len() == places {
        return test(row);
    }
    for n in 0..=next.min(255) {
        row.push(n);
        rows(named, places, next.max(n + 1), row, test);
        row.pop();
    }
}

fn main() {
    let mut text = String::new();
    std::io::stdin().read_to_string(&mut text).expect("a sheet");
    let (mut agents, mut free, mut lines): (Vec<String>, Vec<String>, Vec<Line>) = (vec![], vec![], vec![]);
    let mut roles: Vec<(Vec<String>, Vec<Term>)> = vec![];
    for line in text.lines() {
        let mut words = line.split(' ');
        match words.next().unwrap_or("") {
            "agent" => agents.push(words.next().expect("a name").to_string()),
            "role" => roles.push((vec![], vec![])),
            "var" => roles.last_mut().expect("a role").0.push(words.next().expect("a name").to_string()),
            "send" => {
                let (variables, steps) = roles.last_mut().expect("a role");
                steps.push(term(&mut words, variables, &agents));
            }
            "free" => free.push(words.next().expect("a name").to_string()),
            "seal" => {
                let rank = words.next().expect("a value").parse().expect("a value");
                let mut seal = std::iter::once("seal").chain(words);
                lines.push(Line { rank, term: term(&mut seal, &free, &agents) });
            }
            _ => {}
        }
    }
    let named = agents.len() as u16;
    let (mut tried, mut bad) = (0u64, 0u64);
    for (i, line) in lines.iter().enumerate() {
        rows(named, free.len(), named, &mut vec![], &mut |row| {
            tried += 1;
            let msg = message(&line.term, 0, row);
            if let (Some(first), Msg::Seal(_, _, content)) = (first_line(&lines, &msg), &msg) {
                bad += (first == i && (line.rank > 0) != (rank(&lines, content) > 0)) as u64;
            }
        });
    }
    for (variables, steps) in &roles {
        for player in 0..named {
            rows(named, variables.len(), named, &mut vec![], &mut |row| {
                tried += 1;
                bad += steps.iter().any(|step| rank(&lines, &message(step, player, row)) <= 0) as u64;
            });
        }
    }
    println!("{tried} instances, {bad} bad");
}
