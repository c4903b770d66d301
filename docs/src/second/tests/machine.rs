//! The machine's calls one by one: refusals, the rules' clauses, and runs in any order.

use second::dag::{self, Dag, Node, Parameter};
use second::edges;
use second::generator;
use second::machine::{Machine, Reply};
use second::random::Random;
use second::record::{Binding, Limits, Record, State, Token, LAST_TIME, PAPER};
use second::rules;
use second::syntax::{fork, give, prune, rwait, Expr, Param, Program};
use second::table;

fn dag_of(program: &Program) -> Dag {
    dag::build(&table::read(&program.bytes()).expect("accepted"))
}

/// D(a) = let(a) | out(), goal D(x) <x< out().
fn waiting_program() -> Program {
    let body = fork(give(Param::Var(0)), Expr::Site(16, vec![]));
    let goal = prune(Expr::Call(0, vec![Param::Var(0)]), Expr::Site(17, vec![]));
    Program { definitions: vec![(1, body)], goal }
}

#[test]
fn numbering() {
    let dag = dag_of(&waiting_program());
    let call = |site, next| Node::SiteCall { site, parameters: vec![], next };
    let x = vec![Parameter::Variable(0)];
    let nodes = vec![
        Node::Fork { left: 1, right: 2 },
        Node::SiteCall { site: 0, parameters: x.clone(), next: 3 },
        call(16, 3),
        Node::Return,
        Node::Where { variable: 0, left: 7, right: 8 },
        Node::Remove { variable: 0, next: 9 },
        Node::Choke,
        Node::DefinitionCall { definition: 0, parameters: x, next: 5 },
        call(17, 6),
        Node::Publish,
    ];
    assert_eq!(dag.nodes, nodes);
    assert_eq!((dag.goal, dag.definitions[0].first, dag.definitions[0].formals), (4, 0, 1));
}

#[test]
fn most_nodes() {
    let program = Program::new(edges::full_prunes(8));
    assert_eq!(program.rows().len(), 511);
    let dag = dag_of(&program);
    assert_eq!(dag.nodes.len(), 1022);
    assert_eq!(rules::broken_in_dag(&dag), None);
}

/// After five steps: token 0 is a frame, 1 called out under cell 0, 2 waits, 3 is ready.
fn middle(dag: &Dag) -> Record {
    let machine = Machine::new(dag);
    let mut record = machine.start().expect("started");
    for _ in 0..5 {
        machine.step(&mut record, 0).expect("accepted");
    }
    record
}

#[test]
fn middle_is_as_told() {
    let dag = dag_of(&waiting_program());
    let record = middle(&dag);
    let states: Vec<State> = record.tokens[..4].iter().map(|token| token.state).collect();
    let expected = [State::Frame, State::CalledOut(0), State::Waiting(0), State::Ready];
    assert_eq!(states, expected);
    assert_eq!((record.queue, record.waits, record.calls), (vec![3], vec![2], 1));
    assert_eq!((record.last_token, record.last_cell), (3, 0));
}

/// A due token at this place, at publish.
fn due(record: &mut Record, place: usize, time: u32) {
    record.tokens[place] = Token { node: 9, state: State::Due(time), ..Token::BLANK };
    record.timers.push(place);
}

#[test]
fn each_clause_of_the_record() {
    let dag = dag_of(&waiting_program());
    let breaks = |clause: &str, damage: fn(&mut Record)| {
        let mut record = middle(&dag);
        damage(&mut record);
        assert_eq!(rules::broken(&dag, &record, &PAPER), Some(clause));
        let before = record.clone();
        let machine = Machine::new(&dag);
        assert_eq!(machine.step(&mut record, 0).map_err(|refused| refused.number), Err(14));
        assert_eq!(machine.answer(&mut record, 0, 0).map_err(|refused| refused.number), Err(14));
        for time in [0, LAST_TIME + 1] {
            let refused = machine.advance(&mut record, time).map_err(|refused| refused.number);
            assert_eq!(refused, Err(14));
        }
        assert_eq!(record, before);
    };
    breaks("sizes of the tables", |r| r.tokens.truncate(63));
    breaks("the call count", |r| r.calls = 1_000_001);
    breaks("the clock", |r| r.clock = LAST_TIME + 1);
    breaks("nodes of tokens", |r| r.tokens[0].node = 10);
    breaks("tokens named", |r| r.tokens[2].caller = Some(64));
    breaks("tokens named", |r| r.queue.push(64));
    breaks("tokens named", |r| r.waits.push(64));
    breaks("tokens named", |r| r.timers.push(64));
    breaks("tokens named", |r| r.last_token = 64);
    breaks("cells named", |r| r.tokens[0].cell = Some(32));
    breaks("cells named", |r| r.tokens[0].bindings[7] = Binding::Cell(32));
    breaks("cells named", |r| r.tokens[2].state = State::Waiting(32));
    breaks("cells named", |r| r.cells[0].parent = Some(32));
    breaks("cells named", |r| r.last_cell = 32);
    let queue = "the queue names each ready token once";
    breaks(queue, |r| r.queue.push(3));
    breaks(queue, |r| r.queue.push(2));
    breaks(queue, |r| r.queue.clear());
    breaks("each parent chain ends", |r| r.cells[0].parent = Some(0));
    breaks("no live token under a set cell", |r| r.cells[0].value = Some(1));
    breaks("no live token under a set cell", |r| {
        due(r, 9, 5);
        (r.tokens[9].cell, r.cells[4].value) = (Some(4), Some(1));
    });
    breaks("open handles", |r| r.tokens[1].state = State::CalledOut(1));
    breaks("open handles", |r| {
        r.tokens[2].state = State::CalledOut(0);
        r.waits.clear();
    });
    breaks("the wait order names each waiting token once", |r| r.waits.clear());
    breaks("the wait order names each waiting token once", |r| r.waits.push(2));
    breaks("waiting at an unset cell", |r| {
        r.tokens[2].state = State::Waiting(5);
        r.cells[5].value = Some(1);
    });
    let timers = "the order of call names each due token once";
    breaks(timers, |r| r.timers.push(3));
    breaks(timers, |r| {
        due(r, 9, 5);
        r.timers.push(9);
    });
    breaks(timers, |r| {
        due(r, 9, 5);
        r.timers.clear();
    });
    let times = "due after the clock, and in its range";
    breaks(times, |r| due(r, 9, 0));
    breaks(times, |r| due(r, 9, LAST_TIME + 1));
    breaks(times, |r| {
        due(r, 9, 5);
        r.clock = 5;
    });
    let needs = "what a token's node needs";
    breaks(needs, |r| (r.tokens[3].node, r.tokens[3].caller) = (3, None));
    breaks(needs, |r| (r.tokens[3].node, r.tokens[3].caller) = (3, Some(1)));
    breaks(needs, |r| r.tokens[3].node = 6);
    breaks(needs, |r| r.tokens[2].bindings[0] = Binding::Empty);
    breaks(needs, |r| {
        due(r, 9, 5);
        r.tokens[9].node = 3;
    });
    breaks(needs, |r| (r.tokens[3].node, r.tokens[3].bindings[0]) = (7, Binding::Empty));
    breaks("a ready token has the value it needs", |r| r.tokens[3].node = 9);
    breaks("what is not in use is blank", |r| r.tokens[50].value = Some(1));
    breaks("what is not in use is blank", |r| r.cells[9].parent = Some(0));
}

#[test]
fn each_clause_of_the_dag() {
    let breaks = |clause: &str, damage: fn(&mut Dag)| {
        let mut dag = dag_of(&waiting_program());
        damage(&mut dag);
        assert_eq!(rules::broken_in_dag(&dag), Some(clause));
        let machine = Machine::new(&dag);
        assert_eq!(machine.start().map_err(|refused| refused.number), Err(14));
    };
    breaks("kinds", |d| d.nodes[0] = Node::Unknown);
    breaks("sites", |d| d.nodes[2] = Node::SiteCall { site: 8, parameters: vec![], next: 3 });
    breaks("counts of the dag", |d| d.definitions[0].formals = 5);
    breaks("counts of the dag", |d| d.nodes.resize(1023, Node::Stop));
    breaks("a built-in with its own count", |d| {
        d.nodes[2] = Node::SiteCall { site: 0, parameters: vec![], next: 3 }
    });
    breaks("a built-in with its own count", |d| {
        d.nodes[2] = Node::SiteCall { site: 7, parameters: vec![], next: 3 }
    });
    breaks("definitions", |d| d.definitions.clear());
    breaks("nodes of the dag", |d| d.goal = 10);
    breaks("nodes of the dag", |d| d.definitions[0].first = 10);
    breaks("nodes of the dag", |d| d.nodes[0] = Node::Fork { left: 1, right: 10 });
    breaks("slots", |d| d.nodes[5] = Node::Remove { variable: 8, next: 9 });
}

#[test]
fn refusals_leave_the_record() {
    let dag = dag_of(&waiting_program());
    let machine = Machine::new(&dag);
    let mut record = middle(&dag);
    let before = record.clone();
    assert_eq!(machine.step(&mut record, 1).map_err(|refused| refused.number), Err(9));
    assert_eq!(machine.answer(&mut record, 1, 0).map_err(|refused| refused.number), Err(12));
    for time in [LAST_TIME + 1, u32::MAX] {
        let refused = machine.advance(&mut record, time).map_err(|refused| refused.number);
        assert_eq!(refused, Err(15));
    }
    assert_eq!(record, before);
    let few = Machine { dag: &dag, limits: Limits { calls: 1, ..PAPER } };
    assert_eq!(few.step(&mut record, 0).map_err(|refused| refused.number), Err(13));
    assert_eq!(record, before);
}

#[test]
fn a_full_where_is_refused_for_tokens_first() {
    let dag = dag_of(&waiting_program());
    let refused = |tokens, cells| {
        let machine = Machine { dag: &dag, limits: Limits { tokens, cells, calls: 9 } };
        let mut record = machine.start().expect("started");
        for cell in &mut record.cells {
            cell.value = Some(1);
        }
        // A binding keeps every set cell in use.
        for (binding, cell) in record.tokens[0].bindings.iter_mut().zip(0..cells) {
            *binding = Binding::Cell(cell);
        }
        machine.step(&mut record, 0).map_err(|refused| refused.number)
    };
    assert_eq!(refused(1, 2), Err(10));
    assert_eq!(refused(2, 2), Err(11));
}

/// D(a, b) = D(b, 5) <x< out(), goal D(1, 2): the token that calls at the end of its body becomes the
/// callee, behind in the queue, and no place is given. Where all places are in use too.
#[test]
fn a_tail_call_keeps_no_frame() {
    let again = Expr::Call(0, vec![Param::Var(1), Param::Const(5)]);
    let body = prune(again, Expr::Site(16, vec![]));
    let goal = Expr::Call(0, vec![Param::Const(1), Param::Const(2)]);
    let dag = dag_of(&Program { definitions: vec![(2, body)], goal });
    let machine = Machine { dag: &dag, limits: Limits { tokens: 3, ..PAPER } };
    let mut record = machine.start().expect("started");
    for _ in 0..2 {
        machine.step(&mut record, 0).expect("accepted");
    }
    // The goal's frame, the caller, the right side: all three places.
    let before = record.clone();
    assert_eq!((&before.queue, before.last_token), (&vec![1, 2], 2));
    assert_eq!(before.tokens[1].bindings[2], Binding::Cell(0));
    assert_eq!(machine.step(&mut record, 0), Ok(Reply::GoesOn));
    let mut callee = Token { node: dag.definitions[0].first, ..Token::BLANK };
    (callee.caller, callee.state) = (Some(0), State::Ready);
    (callee.bindings[0], callee.bindings[1]) = (Binding::Value(2), Binding::Value(5));
    assert_eq!(record.tokens[1], callee);
    let expected = Record { tokens: record.tokens.clone(), queue: vec![2, 1], ..before.clone() };
    assert_eq!(record, expected);
    assert_eq!((record.tokens[0], record.tokens[2]), (before.tokens[0], before.tokens[2]));
}

/// From a node only removes, and then a return; removes in a circle lead to none.
#[test]
fn only_removes_lead_to_a_return() {
    let remove = |next| Node::Remove { variable: 0, next };
    let assign = Node::Assign { variable: 0, next: 2 };
    let other = |node| Dag { nodes: vec![node], definitions: vec![], goal: 0 };
    let nodes = vec![remove(1), remove(2), Node::Return, assign, remove(3), remove(6), remove(5)];
    let dag = Dag { nodes, definitions: vec![], goal: 0 };
    let leads: Vec<bool> = (0..7).map(|node| dag.only_removes_to_return(node)).collect();
    assert_eq!(leads, [true, true, true, false, false, false, false]);
    // All nodes but the last are removes, or all of them.
    let mut nodes: Vec<Node> = (1..1022).map(remove).collect();
    nodes.push(Node::Return);
    assert!(Dag { nodes: nodes.clone(), ..dag.clone() }.only_removes_to_return(0));
    nodes[1021] = remove(1021);
    assert!(!Dag { nodes, ..dag }.only_removes_to_return(0));
    for node in [Node::Stop, Node::Choke, Node::Publish, remove(0)] {
        assert!(!other(node).only_removes_to_return(0));
    }
}

/// rwait(3) | rwait(1) | rwait(3), and the clock moved: who is woken, in which order, and who stays.
#[test]
fn due_tokens_are_woken_in_order() {
    let late = |time| rwait(Param::Const(time));
    let dag = dag_of(&Program::new(fork(late(3), fork(late(1), late(3)))));
    let machine = Machine::new(&dag);
    let mut record = machine.start().expect("started");
    let replies: Vec<Reply> =
        (0..5).map(|_| machine.step(&mut record, 0).expect("accepted")).collect();
    assert_eq!(replies.iter().filter(|reply| **reply == Reply::FallsDue).count(), 3);
    // The left one calls first; the right ones take places 1 and 2.
    assert_eq!((&record.queue, &record.timers), (&vec![], &vec![0, 1, 2]));
    assert_eq!(record.tokens[..3].iter().map(|token| token.value).collect::<Vec<_>>(), [None; 3]);
    let all = record.clone();
    assert_eq!(machine.advance(&mut record, 0), Ok(()));
    assert_eq!(record, all);
    assert_eq!(machine.advance(&mut record, 2), Ok(()));
    assert_eq!((&record.queue, &record.timers, record.clock), (&vec![1], &vec![0, 2], 2));
    assert_eq!(record.tokens[1].value, Some(0));
    let before = record.clone();
    assert_eq!(machine.advance(&mut record, 1).map_err(|refused| refused.number), Err(15));
    assert_eq!(record, before);
    assert_eq!(machine.advance(&mut record, 2), Ok(()));
    assert_eq!(record, before);
    assert_eq!(machine.advance(&mut record, LAST_TIME), Ok(()));
    assert_eq!((&record.queue, &record.timers), (&vec![1, 0, 2], &vec![]));
    // In one move, by due time.
    let mut record = all;
    assert_eq!(machine.advance(&mut record, 3), Ok(()));
    assert_eq!((&record.queue, &record.timers), (&vec![1, 0, 2], &vec![]));
}

/// What rwait does at a time: whether it replies, falls due, or ends its token.
#[test]
fn rwait_by_its_sum() {
    let reply = |time: i32, clock: u32| {
        let dag = dag_of(&Program::new(rwait(Param::Const(time))));
        let machine = Machine::new(&dag);
        let mut record = machine.start().expect("started");
        machine.advance(&mut record, clock).expect("accepted");
        let reply = machine.step(&mut record, 0).expect("accepted");
        (reply, record.tokens[0].due_time())
    };
    for clock in [0, 1, 7, LAST_TIME - 1, LAST_TIME] {
        assert_eq!(reply(0, clock), (Reply::GoesOn, None));
        assert_eq!(reply(-1, clock), (Reply::Ends, None));
        assert_eq!(reply(i32::MIN, clock), (Reply::Ends, None));
        let most = (LAST_TIME - clock) as i32;
        if most > 0 {
            assert_eq!(reply(most, clock), (Reply::FallsDue, Some(LAST_TIME)));
            assert_eq!(reply(1, clock), (Reply::FallsDue, Some(clock + 1)));
        }
        if clock > 0 {
            assert_eq!(reply(most + 1, clock), (Reply::Ends, None));
            assert_eq!(reply(i32::MAX, clock), (Reply::Ends, None));
        }
    }
}

/// A run in any order with any answers and clock moves: no call is ever refused with 14.
fn run_in_any_order(random: &mut Random, program: &Program, limits: Limits) {
    let dag = dag_of(program);
    let machine = Machine { dag: &dag, limits };
    let mut record = machine.start().expect("started");
    for _ in 0..300 {
        let before = record.clone();
        let open = record.open_handles();
        let number = if random.percent(15) {
            let time = any_time(random, &record);
            let moved = machine.advance(&mut record, time);
            if moved.is_ok() {
                check_move(&before, &record, time);
            }
            moved.err().map(|refused| refused.number)
        } else if open.is_empty() || random.percent(70) {
            let place = random.below(record.queue.len() + 1);
            machine.step(&mut record, place).err().map(|refused| refused.number)
        } else {
            let handle = *random.pick(&open) + random.below(2) as u32;
            machine.answer(&mut record, handle, 1).err().map(|refused| refused.number)
        };
        assert_ne!(number, Some(14), "{:?}", rules::broken(&dag, &before, &limits));
        assert_eq!(rules::broken(&dag, &record, &limits), None);
        assert!(number.is_none() || record == before);
    }
}

/// Mostly near the clock; sometimes the time at which a token is due, the last one, or any.
fn any_time(random: &mut Random, record: &Record) -> u32 {
    let first = record.timers.first().and_then(|place| record.tokens[*place].due_time());
    match (random.below(40), first) {
        (0, _) => LAST_TIME - random.below(3) as u32,
        (1, _) => random.draw() as u32,
        (2..=19, Some(time)) => time,
        (2..=25, _) => record.clock + random.below(3) as u32,
        _ => record.clock.saturating_sub(1),
    }
}

/// The order of call and who is due after a clock move, said of the record before it.
fn check_move(before: &Record, after: &Record, time: u32) {
    let due = |place: &usize| before.tokens[*place].due_time().expect("a due token");
    let (_, left): (Vec<usize>, Vec<usize>) =
        before.timers.iter().partition(|place| due(place) <= time);
    assert_eq!((after.clock, &after.timers), (time, &left));
    let (old, woken) = after.queue.split_at(before.queue.len());
    assert_eq!(old, before.queue);
    assert_eq!(woken.len() + left.len(), before.timers.len());
    let called = |place: usize| before.timers.iter().position(|at| *at == place);
    let keys: Vec<_> = woken.iter().map(|place| (due(place), called(*place))).collect();
    assert!(keys.is_sorted());
    for place in woken {
        let expected = Token { state: State::Ready, value: Some(0), ..before.tokens[*place] };
        assert_eq!(after.tokens[*place], expected);
    }
}

#[test]
fn runs_keep_the_rules() {
    let mut random = Random::new(7);
    for _ in 0..300 {
        let program = generator::program(&mut random);
        run_in_any_order(&mut random, &program, PAPER);
        let few = Limits { tokens: random.between(1, 9), cells: random.between(1, 5), calls: 7 };
        run_in_any_order(&mut random, &program, few);
    }
}

#[test]
fn places_go_round() {
    // F() = signal() | F(): each round gives a place and frees it.
    let body = fork(Expr::Site(3, vec![]), Expr::Call(0, vec![]));
    let dag = dag_of(&Program { definitions: vec![(0, body)], goal: Expr::Call(0, vec![]) });
    let machine = Machine::new(&dag);
    let mut record = machine.start().expect("started");
    let mut last = 0;
    let mut wrapped = false;
    for _ in 0..1000 {
        let reply = machine.step(&mut record, 0).expect("no round keeps a frame");
        wrapped |= record.last_token < last;
        last = record.last_token;
        assert!(!matches!(reply, Reply::Waits));
    }
    assert!(wrapped);
}
