//! Runs of random calls beside the plain model (document 01, "The plain desk").

mod common;

use common::*;
use reference::causes::{Cause, Refusal};
use reference::model::Model;
use reference::opening::Opening;
use reference::session::{Pair, Session};

/// A session and its buffers beside a model that is told the calls only.
struct Run {
    n: usize,
    buffers: Buffers,
    session: Session,
    model: Model,
    /// Session and buffers before each pick of this run.
    before_picks: Vec<(Session, Buffers)>,
}

impl Run {
    /// Opens a random graph with excess in every buffer. None if it is singular.
    fn opened(random: &mut Random, n: usize) -> Option<Run> {
        let mut buffers = Buffers::random(random, n).with_excess(random);
        let Ok(Opening::Opened(session)) = buffers.open(n as u64) else {
            return None;
        };
        Some(Run {
            n,
            buffers,
            session,
            model: Model::new(),
            before_picks: Vec::new(),
        })
    }

    /// Makes a session by hand: some edges in any order, if the other
    /// vertices have an inverse. The whole graph need not have one.
    fn by_hand(random: &mut Random, n: usize) -> Option<Run> {
        let mut buffers = Buffers::random(random, n).with_excess(random);
        let graph = buffers.graph(n);
        let mut model = Model::new();
        for _ in 0..random.below(n as u64 + 1) {
            let (a, b) = (random.below(n as u64), random.below(n as u64));
            let unmatched = model.unmatched(&graph);
            let both = unmatched.contains(&a) && unmatched.contains(&b);
            if a < b && both && graph.adjacent(a as usize, b as usize) {
                model.pairs.push(pair(a, b));
            }
        }
        let inverse = model.inverse(&graph)?;
        let sequence = model.sequence(&graph);
        let session = model.session(&graph);
        buffers.inverse[..n * n].copy_from_slice(&inverse);
        buffers.sequence[..n].copy_from_slice(&sequence);
        Some(Run {
            n,
            buffers,
            session,
            model,
            before_picks: Vec::new(),
        })
    }

    /// Makes a call on both sides and compares everything.
    fn call(&mut self, call: Call) -> Result<Option<Pair>, Refusal> {
        let before = self.buffers.clone();
        let session_before = self.session;
        let outcome = self.buffers.call(self.session, call);
        self.session = outcome.session;
        let expected = self.model_answer(call);
        assert_eq!(outcome.answer, expected, "{call:?}");
        match outcome.answer {
            Err(_) => {
                assert_eq!(self.buffers, before);
                assert_eq!(self.session, session_before);
            }
            Ok(_) => {
                self.check_untouched(call, &before);
                self.check_undo(call, session_before, before);
            }
        }
        self.check_session();
        outcome.answer
    }

    fn model_answer(&mut self, call: Call) -> Result<Option<Pair>, Refusal> {
        let graph = self.buffers.graph(self.n);
        match call {
            Call::Pick(a, b) => self.model.pick(&graph, a, b).map(Some),
            Call::Automatic => self.model.automatic(&graph).map(Some),
            Call::Undo => self.model.undo(&graph).map(Some),
            Call::Row(a) if a >= self.n as u64 => Err(Cause::VertexInvalid.refusal()),
            Call::Row(a) if !self.model.unmatched(&graph).contains(&a) => {
                Err(Cause::VertexMatched.refusal())
            }
            Call::Row(a) => {
                let partners = self.model.partners(&graph, a);
                for b in 0..self.n {
                    let open = partners.contains(&(b as u64));
                    assert_eq!(self.buffers.row[b], u8::from(open));
                }
                Ok(None)
            }
        }
    }

    /// Checks that an accepted call writes only sequence and inverse, or only the row, and
    /// nothing past n or n times n.
    fn check_untouched(&self, call: Call, before: &Buffers) {
        let n = self.n;
        let mut expected = before.clone();
        if let Call::Row(_) = call {
            expected.row[..n].copy_from_slice(&self.buffers.row[..n]);
        } else {
            expected.sequence[..n].copy_from_slice(&self.buffers.sequence[..n]);
            expected.inverse[..n * n].copy_from_slice(&self.buffers.inverse[..n * n]);
        }
        assert_eq!(self.buffers, expected);
    }

    /// Checks that an undo restores the session and every byte and word from before the
    /// pair it removes.
    fn check_undo(&mut self, call: Call, session: Session, before: Buffers) {
        match call {
            Call::Pick(..) | Call::Automatic => self.before_picks.push((session, before)),
            Call::Row(_) => {}
            Call::Undo => {
                if let Some((session, mut buffers)) = self.before_picks.pop() {
                    buffers.row = self.buffers.row.clone();
                    assert_eq!(self.session, session);
                    assert_eq!(self.buffers, buffers);
                }
            }
        }
    }

    /// Checks that session, sequence and inverse are those of the model.
    fn check_session(&self) {
        let graph = self.buffers.graph(self.n);
        assert_eq!(self.session, self.model.session(&graph));
        assert_eq!(self.buffers.sequence[..self.n], self.model.sequence(&graph));
        let inverse = self.model.inverse(&graph).expect("an inverse");
        assert_eq!(self.buffers.inverse[..self.n * self.n], inverse);
    }

    /// Checks that the automatic picks to come are half the unmatched vertices, each of
    /// which has a partner.
    fn check_picks_to_come(&self) {
        let graph = self.buffers.graph(self.n);
        let unmatched = self.model.unmatched(&graph);
        assert_eq!(unmatched.len() % 2, 0);
        let half = unmatched.len() as u64 / 2;
        assert_eq!(self.model.picks_to_come(&graph), half);
        for vertex in unmatched {
            assert!(!self.model.partners(&graph, vertex).is_empty());
        }
        let mut ahead = self.buffers.clone();
        let mut session = self.session;
        for _ in 0..half {
            let outcome = ahead.automatic(session);
            assert!(outcome.answer.is_ok());
            session = outcome.session;
        }
        assert_eq!(ahead.refused(session, Call::Automatic), (11, 0));
    }

    /// Checks that, with no vertex unmatched, each stands in the sequence once, in an edge.
    fn check_perfect_matching(&self) {
        let sequence = &self.buffers.sequence[..self.n];
        if sequence.contains(&255) {
            return;
        }
        let mut sorted = sequence.to_vec();
        sorted.sort();
        assert_eq!(sorted, (0..self.n as u8).collect::<Vec<_>>());
        for pair in sequence.chunks(2) {
            let cell = usize::from(pair[0]) * self.n + usize::from(pair[1]);
            assert_eq!(self.buffers.adjacency[cell], 1);
        }
    }

    fn check_all(&self) {
        self.check_session();
        self.check_picks_to_come();
        self.check_perfect_matching();
    }
}

/// Returns mostly a vertex, sometimes any number.
fn random_vertex(random: &mut Random, n: usize) -> u64 {
    let n = n as u64;
    match random.below(12) {
        0 => random.choose(&[n, n + 1, 255, 256, 257, 300, 1 << 32, u64::MAX]),
        1 => 256 + random.below(n.max(1)),
        _ => random.below(n.max(1)),
    }
}

fn random_call(random: &mut Random, n: usize) -> Call {
    match random.below(10) {
        0..=3 => Call::Pick(random_vertex(random, n), random_vertex(random, n)),
        4..=5 => Call::Automatic,
        6..=7 => Call::Undo,
        _ => Call::Row(random_vertex(random, n)),
    }
}

fn random_run(random: &mut Random, mut run: Run, calls: usize) -> Counts {
    let mut counts = Counts::default();
    run.check_all();
    for _ in 0..calls {
        let call = random_call(random, run.n);
        match run.call(call) {
            Ok(_) => counts.accepted += 1,
            Err(refusal) => counts.refused[usize::from(refusal.cause.number())] += 1,
        }
        if random.chance(20) {
            run.check_all();
        }
    }
    run.check_all();
    counts
}

/// How often calls were accepted, and refused with each cause.
#[derive(Default)]
struct Counts {
    accepted: usize,
    refused: [usize; 16],
}

impl Counts {
    fn add(&mut self, other: Counts) {
        self.accepted += other.accepted;
        for (sum, count) in self.refused.iter_mut().zip(other.refused) {
            *sum += count;
        }
    }
}

#[test]
fn small_graphs_from_opening() {
    let mut random = Random(51);
    let mut counts = Counts::default();
    for _ in 0..1500 {
        let n = random.below(15) as usize;
        if let Some(run) = Run::opened(&mut random, n) {
            counts.add(random_run(&mut random, run, 25));
        }
    }
    assert!(counts.accepted > 1000);
    for cause in [7, 8, 9, 10, 11] {
        assert!(counts.refused[cause] > 20, "cause {cause}");
    }
    assert_eq!(counts.refused[1..7], [0; 6]);
}

#[test]
fn small_sessions_put_together_by_hand() {
    let mut random = Random(52);
    let mut undo_refused = 0;
    for _ in 0..10_000 {
        let n = 2 * random.below(6) as usize;
        let Some(mut run) = Run::by_hand(&mut random, n) else {
            continue;
        };
        let pairs = run.session.pairs;
        if run.call(Call::Undo) == Err(Cause::RestSingular.refusal()) {
            assert!(pairs > 0);
            undo_refused += 1;
        }
        let counts = random_run(&mut random, run, 10);
        assert_eq!(counts.refused[1..7], [0; 6]);
    }
    assert!(undo_refused > 20, "{undo_refused}");
}

#[test]
fn the_empty_run() {
    let mut random = Random(53);
    for n in 0..15 {
        for _ in 0..10 {
            if let Some(run) = Run::opened(&mut random, n) {
                run.check_all();
            }
        }
    }
}

#[test]
fn larger_graphs_from_opening() {
    let mut random = Random(54);
    for n in [16, 20, 24, 30] {
        for _ in 0..3 {
            if let Some(run) = Run::opened(&mut random, n) {
                random_run(&mut random, run, 20);
            }
        }
    }
}

#[test]
fn all_the_way_and_back() {
    let mut random = Random(55);
    for n in [2, 4, 8, 12, 24] {
        let Some(mut run) = (0..50).find_map(|_| Run::opened(&mut random, n)) else {
            panic!("no graph opened");
        };
        let opened = run.buffers.clone();
        for _ in 0..n / 2 {
            assert!(run.call(Call::Automatic).is_ok());
        }
        run.check_perfect_matching();
        assert!(run.call(Call::Automatic).is_err());
        for _ in 0..n / 2 {
            assert!(run.call(Call::Undo).is_ok());
        }
        assert!(run.call(Call::Undo).is_err());
        assert_eq!(run.buffers, opened);
    }
}

#[test]
fn the_largest_graph() {
    let mut random = Random(56);
    let n = 96;
    let mut buffers = Buffers::complete(n).with_excess(&mut random);
    for weight in &mut buffers.weights {
        *weight = 1 + random.below(65_520) as u16;
    }
    let session = buffers.opened(n as u64);
    let mut run = Run {
        n,
        buffers,
        session,
        model: Model::new(),
        before_picks: Vec::new(),
    };
    for call in [
        Call::Row(95),
        Call::Pick(95, 0),
        Call::Pick(0, 95),
        Call::Automatic,
        Call::Undo,
        Call::Undo,
        Call::Undo,
    ] {
        let _ = run.call(call);
    }
    assert_eq!(run.session.pairs, 0);
}
