//! Both engines on the same inputs, valid and damaged: equal answers and equal numbers after every call.
use crate::answer::Answer;
use crate::books;
use crate::cadical;
use crate::damage;
use crate::engine::Engine;
use crate::fields;
use crate::places::{places, CONFLICT, DECISIONS, FIXED, LENGTH};
use crate::plan::{PLAIN, PROVED};
use crate::random::Random;
use crate::rates::{self, Rates};
use crate::script::{session_length, Call, Workload};
use crate::steps;
use crate::tables;
use crate::tally::Tally;
use std::rc::Rc;

/// Lent numbers behind the required length, which no call may change.
const MARGIN: usize = 3;

/// The calls of a list.
const LIST: usize = 24;

/// The refusal numbers of a price, of a table of age bands, and of a price by age.
pub const PRICE_REFUSALS: [usize; 5] = [11, 12, 14, 19, 20];
pub const TABLE_REFUSALS: [usize; 2] = [25, 26];
pub const AGE_REFUSALS: [usize; 7] = [11, 12, 14, 19, 20, 25, 26];

/// The refusal numbers of fields and quote records, in writing and in reading.
pub const WRITING_REFUSALS: [usize; 3] = [23, 24, 10];
pub const READING_REFUSALS: [usize; 1] = [23];

/// How many of each of these are written, and read.
const PACKED: usize = 10_000;

/// How many calls were compared, by what they answered, and among them prices, checked tables, prices by age, and fields and quote records that were
/// written and read, in how many states every variable was looked up, how many steps left the numbers of the call, how many states CaDiCaL confirmed
/// afresh, and how many it answered alike when kept, or by what it had learnt.
#[derive(Default)]
pub struct Compared {
    pub all: Tally,
    pub prices: Tally,
    pub tables: Tally,
    pub prices_by_age: Tally,
    pub written_fields: Tally,
    pub read_fields: Tally,
    pub written_records: Tally,
    pub read_records: Tally,
    pub looked_up: usize,
    pub steps: usize,
    pub confirmed: usize,
    pub alike: usize,
    pub learnt: usize,
}

/// A number about those at which a backtrack or a fixing begins to be refused.
fn about(random: &mut Random, session: &[u32]) -> u32 {
    let [decisions, fixed] = [DECISIONS, FIXED].map(|place| session.get(place).copied().unwrap_or(0));
    let near = [0, decisions, fixed, decisions.wrapping_sub(fixed)][random.below(4)];
    near.wrapping_add(random.below(4) as u32).wrapping_sub(1)
}

impl Compared {
    /// Makes a call on both engines, each over its own copy of the lent numbers; panics where they differ.
    fn both<N: Clone + PartialEq>(&mut self, numbers: &mut N, call: impl Fn(&dyn Engine, &mut N) -> Answer) -> Answer {
        let mut others = numbers.clone();
        let answer = call(PROVED, numbers);
        let other = call(PLAIN, &mut others);
        assert_eq!(answer, other, "the answers differ");
        assert!(*numbers == others, "the numbers differ after {answer:?}");
        self.all.add(answer);
        answer
    }

    /// The calls that change nothing.
    fn reading_calls(&mut self, random: &mut Random, book: &[u32], session: &[u32]) {
        let variable = random.below(book[0] as usize % 501 + 2) as u32;
        let before = random.below(8) as u32;
        let mut numbers = session.to_vec();
        self.both(&mut numbers, |engine, session| engine.lookup(book, session, variable));
        self.both(&mut numbers, |engine, session| engine.fixed(book, session));
        let mut copied = vec![u32::MAX; 12];
        self.both(&mut copied, |engine, out| engine.trail_from(book, session, before, out));
        let room = random.below(8);
        self.both(&mut vec![u32::MAX; room], |engine, out| {
            engine.figures(book, session, out)
        });
        let room = if random.once_in(3) { 4 } else { 1503 };
        self.both(&mut vec![u32::MAX; room], |engine, out| {
            engine.checks(book, session, out)
        });
        self.both(&mut 7, |engine, sum| engine.total(book, session, sum));
        self.chapters(random, book, session);
        self.any_quote(random, book);
        let rates = rates::any(random, book, session);
        self.any_prices(random, book, session, &rates);
    }

    /// The sums by chapter: from one chapter fewer than there are clauses to two more, now and then up to 32 instead of 31, and 31 to 34 sums.
    fn chapters(&mut self, random: &mut Random, book: &[u32], session: &[u32]) {
        let length = (book[1] as usize + random.below(4)).saturating_sub(1);
        let highest = if random.once_in(8) { 33 } else { 32 };
        let chapters: Vec<u32> = (0..length).map(|_| random.below(highest) as u32).collect();
        let room = 31 + random.below(4);
        self.both(&mut vec![7; room], |engine, totals| {
            engine.chapters(book, session, &chapters, totals)
        });
    }

    /// The quote for a script, in so many places, and its ceiling.
    fn quote(&mut self, book: &[u32], script: &[u8], room: usize) {
        self.both(&mut (vec![7; room], 7), |engine, (out, ceiling)| {
            engine.quote(book, script, out, ceiling)
        });
    }

    /// The quote for a script of lines in form or nearly so, in 0 to 5 places.
    fn any_quote(&mut self, random: &mut Random, book: &[u32]) {
        let script = damage::script(random);
        self.quote(book, &script, random.below(6));
    }

    /// Quotes for scripts about the greatest number of lines `b k`.
    fn many_lines(&mut self, book: &[u32]) {
        for count in [999_999, 1_000_000, 1_000_001] {
            let script = b"b 1\n".repeat(count);
            self.quote(book, &script, 3);
            self.quote(&[], &script, 3);
        }
    }

    /// The price by a rate list.
    fn price(&mut self, book: &[u32], session: &[u32], Rates { base, lines }: &Rates) {
        let answer = self.both(&mut 7, |engine, amount| {
            engine.price(book, session, *base, lines, amount)
        });
        self.prices.add(answer);
    }

    /// Whether a table of age bands is good, or the age at fault.
    fn table(&mut self, table: &[u32]) {
        let mut age = u32::MAX;
        let answer = self.both(&mut age, |engine, age| engine.check_bands(table, age));
        self.tables.add(answer);
    }

    /// The price by a rate list and a table of age bands.
    fn price_for_age(&mut self, book: &[u32], session: &[u32], rates: &Rates, table: &[u32], age: u32) {
        let Rates { base, lines } = rates;
        let answer = self.both(&mut 7, |engine, amount| {
            engine.price_for_age(book, session, *base, table, age, lines, amount)
        });
        self.prices_by_age.add(answer);
    }

    /// The price by a rate list, and by any table and age too; the table is checked by itself.
    fn any_prices(&mut self, random: &mut Random, book: &[u32], session: &[u32], rates: &Rates) {
        self.price(book, session, rates);
        let table = tables::any(random);
        self.table(&table);
        self.price_for_age(book, session, rates, &table, tables::age(random));
    }

    /// Prices and tables were accepted and refused by each of their numbers, and tables were false.
    fn expect_prices(&self) {
        self.prices.expect("price", &PRICE_REFUSALS);
        self.tables.expect("table", &TABLE_REFUSALS);
        assert!(self.tables.falses > 0, "no table was false");
        self.prices_by_age.expect("price by age", &AGE_REFUSALS);
    }

    /// Any value written as a field, and any field read.
    fn any_fields(&mut self, random: &mut Random) {
        let bytes = fields::length(random);
        let value = fields::value(random, bytes);
        let mut out = fields::lent(random, bytes);
        let answer = self.both(&mut out, |engine, out| engine.write_field(value, bytes, out));
        self.written_fields.add(answer);
        let field = fields::field(random);
        let answer = self.both(&mut 7, |engine, value| engine.read_field(&field, value));
        self.read_fields.add(answer);
    }

    /// Any values written as a quote record, and any quote record read.
    fn any_records(&mut self, random: &mut Random) {
        let map = fields::map(random);
        let values = fields::values(random);
        let mut out = fields::lent(random, fields::record_length(map));
        let answer = self.both(&mut out, |engine, out| engine.write_quote(map, values, out));
        self.written_records.add(answer);
        let record = fields::record(random);
        let answer = self.both(&mut [7; 3], |engine, values| engine.read_quote(&record, values));
        self.read_records.add(answer);
    }

    /// Any fields and quote records, from a generator of their own; they were accepted, and refused by each of their numbers.
    fn packed(&mut self) {
        let mut random = Random::new(8);
        for _ in 0..PACKED {
            self.any_fields(&mut random);
            self.any_records(&mut random);
        }
        self.written_fields.expect("written field", &WRITING_REFUSALS);
        self.read_fields.expect("read field", &READING_REFUSALS);
        self.written_records.expect("written record", &WRITING_REFUSALS);
        self.read_records.expect("read record", &READING_REFUSALS);
    }

    /// A lookup of every variable, and of the numbers before and behind them.
    fn lookups(&mut self, book: &[u32], session: &[u32]) {
        let mut numbers = session.to_vec();
        for variable in 0..=book[0] + 1 {
            self.both(&mut numbers, |engine, session| engine.lookup(book, session, variable));
        }
        self.looked_up += 1;
    }

    /// A decision of any literal, refused ones among them.
    fn decision(&mut self, random: &mut Random, book: &[u32], session: &mut Vec<u32>) {
        let literal = random.below(2 * (book[0] as usize % 501) + 4) as u32;
        self.both(session, |engine, session| engine.decide(book, session, literal));
    }

    /// A backtrack of any k, refused ones among them.
    fn backtrack(&mut self, random: &mut Random, book: &[u32], session: &mut Vec<u32>) {
        let k = about(random, session);
        self.both(session, |engine, session| engine.backtrack(book, session, k));
    }

    /// A fixing of any f, refused ones among them; the step without examination leaves the same where it is accepted.
    fn fixing(&mut self, random: &mut Random, book: &[u32], session: &mut Vec<u32>) {
        let f = about(random, session);
        let mut stepped = session.clone();
        let answer = self.both(session, |engine, session| engine.fix(book, session, f));
        if let Answer::Accepted(_) = answer {
            // The session passed: the fixing was accepted.
            unsafe { steps::fix(f, book, &mut stepped) };
            self.step_left(session, &stepped);
        }
    }

    /// A step without examination left the numbers that the call left.
    fn step_left(&mut self, session: &[u32], stepped: &[u32]) {
        assert!(session == stepped, "the step without examination differs");
        self.steps += 1;
    }

    /// A random call of each kind that changes a session, on copies.
    fn random_calls(&mut self, random: &mut Random, book: &[u32], session: &[u32]) {
        self.decision(random, book, &mut session.to_vec());
        self.backtrack(random, book, &mut session.to_vec());
        self.fixing(random, book, &mut session.to_vec());
    }

    /// An opening and random calls, each on the numbers that the one before left.
    fn list(&mut self, random: &mut Random, book: &[u32]) {
        let mut session = vec![9; session_length(book) + MARGIN];
        self.both(&mut session, |engine, session| engine.open(book, session));
        for _ in 0..LIST {
            match random.below(6) {
                0 => self.backtrack(random, book, &mut session),
                1 => self.fixing(random, book, &mut session),
                _ => self.decision(random, book, &mut session),
            }
        }
        self.state(random, book, &session);
    }

    /// Calls that change a session, on damaged copies of it and on a damaged copy of the book; the reading calls on two of the damaged sessions.
    fn damaged_calls(&mut self, random: &mut Random, book: &[u32], session: &[u32]) {
        let damaged = damage::numbers(random, session);
        self.random_calls(random, book, &damaged);
        self.reading_calls(random, book, &damaged);
        let fixed = damage::fixed(random, session);
        self.random_calls(random, book, &fixed);
        self.reading_calls(random, book, &fixed);
        let rewatched = damage::rewatched(random, book, session);
        self.random_calls(random, book, &rewatched);
        let broken = damage::numbers(random, book);
        if broken.is_empty() {
            return;
        }
        self.both(&mut (), |engine, ()| engine.required_length(&broken));
        self.any_quote(random, &broken);
        let rates = rates::any(random, book, session);
        self.any_prices(random, &broken, session, &rates);
        self.both(&mut session.to_vec(), |engine, session| engine.open(&broken, session));
        self.random_calls(random, &broken, session);
    }

    /// The values that CaDiCaL propagates are those of the session.
    fn confirm(&mut self, book: &[u32], session: &[u32]) {
        let places = places(book);
        let levels = &session[places.levels][..session[LENGTH] as usize];
        let decided = |&i: &usize| levels[i] != if i == 0 { 0 } else { levels[i - 1] };
        let trail = &session[places.trail];
        let decisions: Vec<u32> = (0..levels.len()).filter(decided).map(|i| trail[i]).collect();
        let values = cadical::values(&cadical::clauses_of(book), &decisions, trail.len());
        let signs = session[places.values].iter().map(|&value| match value {
            0 => 0,
            value => 1 - 2 * (value % 2) as i32,
        });
        let expected = (session[CONFLICT] == 0).then(|| signs.collect::<Vec<i32>>());
        assert!(values == expected, "CaDiCaL propagates otherwise");
        self.confirmed += 1;
    }

    /// Further calls on a state, on damaged copies too.
    fn state(&mut self, random: &mut Random, book: &[u32], session: &[u32]) {
        self.lookups(book, session);
        self.reading_calls(random, book, session);
        self.random_calls(random, book, session);
        self.damaged_calls(random, book, session);
    }

    /// A whole workload, with further calls behind the opening and behind one call in `every`.
    fn workload(&mut self, random: &mut Random, workload: &Workload, every: usize) {
        let book = &workload.book;
        let mut session = vec![9; session_length(book) + MARGIN];
        self.both(&mut session, |engine, session| engine.open(book, session));
        self.state(random, book, &session);
        for (i, &call) in workload.script.iter().enumerate() {
            let mut stepped = session.clone();
            self.both(&mut session, |engine, session| call.make(engine, book, session));
            // The script's calls are accepted in a session that passes.
            unsafe { steps::take(call, book, &mut stepped) };
            self.step_left(&session, &stepped);
            if i % every == 0 {
                self.state(random, book, &session);
                self.confirm(book, &session);
            }
        }
    }

    /// Every question of a workload to one solver that is kept: it finds each conflict, and finds another only by what it has learnt.
    fn kept(&mut self, workload: &Workload) {
        let mut kept = cadical::Kept::new(&cadical::clauses_of(&workload.book));
        let mut states = workload.decisions_in_force().into_iter();
        workload.run(PROVED, |call, session| {
            let answer = call.make(PROVED, &workload.book, session);
            let Call::Decide(_) = call else { return };
            let decisions = states.next().expect("a state for each decision");
            let in_conflict = matches!(answer, Answer::Conflict(_));
            match (kept.ask(&decisions), in_conflict) {
                (true, true) => panic!("CaDiCaL, kept, misses a conflict"),
                (false, false) => self.learnt += 1,
                _ => self.alike += 1,
            }
        });
    }

    /// Damaged copies of a text.
    fn texts(&mut self, random: &mut Random, text: &[u8], copies: usize) {
        for _ in 0..copies {
            let text = damage::text(random, text);
            let mut book = vec![5; if random.once_in(9) { random.below(60) } else { 7507 }];
            self.both(&mut book, |engine, book| engine.read(&text, book));
        }
    }
}

/// Compares both engines over the bench's workloads and texts and over small books; panics at a difference.
pub fn compare(workloads: &[Rc<Workload>], texts: &[Rc<Vec<u8>>]) -> Compared {
    let mut compared = Compared::default();
    let mut random = Random::new(99);
    for workload in workloads {
        compared.workload(&mut random, workload, 5);
        compared.kept(workload);
    }
    let edges = damage::edges();
    for text in texts
        .iter()
        .map(|text| &text[..])
        .chain(edges.iter().map(|text| &text[..]))
    {
        compared.both(&mut vec![5; 7507], |engine, book| engine.read(text, book));
        compared.texts(&mut random, text, 30);
    }
    for _ in 0..1500 {
        let book = books::small(&mut random);
        compared.texts(&mut random, &books::text_of(&book), 6);
        compared.list(&mut random, &book);
        let workload = Workload::new("small", &mut random, book, 12);
        compared.workload(&mut random, &workload, 2);
    }
    compared.many_lines(&workloads[0].book);
    compared.expect_prices();
    compared.packed();
    compared
}
