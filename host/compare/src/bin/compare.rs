//! Compares the proved calls with the independent model, case by case. See README.md.

use compare::cases::fills::{Chains, FillInputs, JoinInputs};
use compare::cases::pieces::{always_pieces, Cutter, PieceInputs};
use compare::cases::sheets::SheetInputs;
use compare::cases::table::RecordTable;
use compare::cases::tables::records::{always_records, RecordInputs};
use compare::cases::tables::{always_write, EncodingInputs, WriteInputs};
use compare::cases::{any_k, Inputs, PartInputs};
use compare::fast::sheet::{check, Rule};
use compare::fast::write as fast_write;
use compare::question::{AllFinished, AllLent, Bytes, Fed, Pair, Part, Question, Records, Single};
use compare::random::Random;
use compare::read::{self, WRONG};
use compare::shrink::{shrink, shrink_sheet, shrink_table};
use compare::{
    cases, child, fill, hex, join, name, pieces, sheet, table, write, write_records, Outcome,
    Parts, Whole, WholeOf,
};
use std::process::ExitCode;
use std::time::{Duration, Instant};

const USAGE: &str = "usage: compare --gate | --cases N [--seed S] [--wrong K]
  --gate     the gate's cases with the gate's seed
  --cases N  this many cases for each call
  --seed S   another seed than the gate's
  --wrong K  wrong model K in the place of its proved call, to see a difference reported";

/// The gate's seed, and its cases for each call.
const SEED: u64 = 2048;
const READ_CASES: usize = 200_000;
const PARTS_CASES: usize = 20_000;
const SHEET_CASES: usize = 20_000;
const PAIR_CASES: usize = 20_000;
const TABLE_CASES: usize = 20_000;
const CHAINS: usize = 4_000;

/// Fewer than for `read`: the piece reader is fed with an input again for each place that it is cut at, so
/// that a case takes as long as some 25 of `read`.
const PIECES_CASES: usize = 35_000;

/// The numbers of the wrong models: those of `child` follow those of `read`, and so on.
const WRONG_CHILD: usize = WRONG.len();
const WRONG_NAME: usize = WRONG_CHILD + child::WRONG.len();
const WRONG_SHEET: usize = WRONG_NAME + name::WRONG.len();
const WRONG_FILL: usize = WRONG_SHEET + sheet::WRONG.len();
const WRONG_JOIN: usize = WRONG_FILL + fill::WRONG.len();
const WRONG_WRITE: usize = WRONG_JOIN + join::WRONG.len();
const WRONG_TABLE: usize = WRONG_WRITE + write::WRONG.len();
const WRONG_RECORDS: usize = WRONG_TABLE + table::WRONG.len();
const WRONG_PIECES: usize = WRONG_RECORDS + write_records::WRONG.len();
const ALL_WRONG: usize = WRONG_PIECES + pieces::WRONG.len();

/// The numbers that a refusal of each call can carry.
const READ_NUMBERS: [usize; 8] = [1, 2, 3, 4, 5, 6, 7, 8];
const PARTS_NUMBERS: [usize; 9] = [1, 2, 3, 4, 5, 6, 7, 8, 18];
const SHEET_NUMBERS: [usize; 1] = [13];
const FILL_NUMBERS: [usize; 12] = [1, 2, 3, 4, 5, 6, 7, 8, 12, 13, 15, 16];
const JOIN_NUMBERS: [usize; 6] = [12, 13, 14, 15, 16, 17];
const WRITE_NUMBERS: [usize; 6] = [9, 10, 11, 12, 15, 16];
const TABLE_NUMBERS: [usize; 9] = [1, 2, 3, 4, 5, 6, 7, 8, 12];

/// The rules that a table can break, as the fast writer names them.
const RULES: usize = fast_write::Rule::ALL.len();

/// What the gate's cases, or more, must hold for the comparison to mean something.
const LEAST_OF_A_NUMBER: usize = 100;
const LEAST_ANSWERED: usize = 4; // one in so many

/// Differences that are shown, and those after which a call is given up.
const SHOWN: usize = 3;
const GIVEN_UP: usize = 1000;

struct Options {
    gate: bool,
    cases: usize,
    seed: u64,
    wrong: usize,
}

fn options() -> Option<Options> {
    let mut options = Options {
        gate: false,
        cases: 0,
        seed: SEED,
        wrong: 0,
    };
    let mut words = std::env::args().skip(1);
    while let Some(word) = words.next() {
        match word.as_str() {
            "--gate" => options.gate = true,
            "--cases" => options.cases = words.next()?.parse().ok()?,
            "--seed" => options.seed = words.next()?.parse().ok()?,
            "--wrong" => options.wrong = words.next()?.parse().ok()?,
            _ => return None,
        }
    }
    let alone = options.gate != (options.cases > 0);
    (alone && options.wrong <= ALL_WRONG).then_some(options)
}

impl Options {
    /// The wrong model that stands in for a proved call, if it is one of these. Before them come
    /// those of other calls.
    fn instead<T: Copy>(&self, wrong: &[(&str, T)], before: usize) -> Option<T> {
        let index = self.wrong.checked_sub(before + 1)?;
        wrong.get(index).map(|&(_, wrong)| wrong)
    }
}

/// What passed and failed.
#[derive(Default)]
struct Count {
    passed: usize,
    failed: usize,
}

impl Count {
    fn of(&mut self, passed: bool) {
        match passed {
            true => self.passed += 1,
            false => self.failed += 1,
        }
    }
}

/// In how many cases each number came.
#[derive(Default)]
struct Tally {
    numbers: [usize; 19],
}

impl Tally {
    /// The outcomes of one case.
    fn add(&mut self, outcomes: &[Outcome]) {
        let mut numbers: Vec<u32> = outcomes.iter().map(|outcome| outcome.number).collect();
        numbers.sort();
        numbers.dedup();
        numbers
            .iter()
            .for_each(|&number| self.numbers[number as usize] += 1);
    }

    /// The numbers that a call can give, and beside them how often something else came.
    fn print(&self, numbers: &[usize], head: [&str; 2], others: &[(String, usize)]) {
        let words = others.iter().map(|(what, _)| what.len());
        let width = words.max().unwrap_or(0).max(head[0].len()).max(8);
        println!(
            "  {:>8} {:>8}   {:>width$} {:>8}",
            "number", "cases", head[0], head[1]
        );
        let answered = ("answered".to_string(), self.numbers[0]);
        let refused = numbers
            .iter()
            .map(|&number| (number.to_string(), self.numbers[number]));
        let left: Vec<(String, usize)> = std::iter::once(answered).chain(refused).collect();
        let cell = |column: &[(String, usize)], width: usize, i: usize| match column.get(i) {
            Some((what, times)) => format!("{what:>width$} {times:>8}"),
            None => String::new(),
        };
        for i in 0..left.len().max(others.len()) {
            let line = format!("  {:>17}   {}", cell(&left, 8, i), cell(others, width, i));
            println!("{}", line.trim_end());
        }
    }

    /// Whether the cases hold enough of each number that a call can give, and of answers.
    fn check(&self, call: &str, cases: usize, numbers: &[usize], count: &mut Count) {
        for &number in numbers {
            let times = self.numbers[number];
            if times < LEAST_OF_A_NUMBER {
                println!("{call}: number {number} came {times} times, under {LEAST_OF_A_NUMBER}");
                count.failed += 1;
            }
        }
        if self.numbers[0] < cases.div_ceil(LEAST_ANSWERED) {
            println!("{call}: under 1 case in {LEAST_ANSWERED} was answered");
            count.failed += 1;
        }
    }
}

/// Says which question it was, should a program panic.
struct Running<'a, Q: Question>(&'a Q);

impl<Q: Question> Drop for Running<'_, Q> {
    fn drop(&mut self) {
        if std::thread::panicking() {
            eprintln!("compare: that was on the input {}", self.0);
        }
    }
}

/// A line on standard error now and then.
struct Progress {
    start: Instant,
    last: Instant,
}

impl Progress {
    fn new() -> Progress {
        let start = Instant::now();
        Progress { start, last: start }
    }

    fn tell(&mut self, call: &str, done: usize, all: usize) {
        if self.last.elapsed() >= Duration::from_secs(1) {
            self.last = Instant::now();
            let seconds = self.start.elapsed().as_secs();
            eprintln!("{call}: {done} of {all} cases in {seconds} s");
        }
    }
}

/// The programs of a call, and what is counted beside the numbers.
struct Call<Q: Question> {
    name: &'static str,
    proved: Q::Program,
    /// other programs that must say the same
    others: &'static [(&'static str, Q::Program)],
    model: fn(&Q) -> Q::Said,
    wrong: &'static [(&'static str, Q::Program)],
    /// the wrong models of other calls that come before
    wrong_before: usize,
    /// the gate's cases, and the numbers that they must hold
    gate: usize,
    numbers: &'static [usize],
    /// makes a question small that differs
    smallest: fn(&Q, &dyn Fn(&Q) -> bool) -> Q,
    head: [&'static str; 2],
    sorts: Vec<String>,
    sort: fn(&Q, &Q::Said) -> Option<usize>,
    /// whether the gate's cases must hold enough of each sort, too
    every_sort: bool,
}

/// The first of the programs that are asked.
const PROVED: usize = 0;

/// Asks the programs of a call, and compares what they say.
fn compare<Q: Question>(
    call: &Call<Q>,
    fixed: Vec<Q>,
    generated: impl Iterator<Item = Q>,
    options: &Options,
    count: &mut Count,
) {
    compare_and_note(call, fixed, generated, |_, _| (), options, count);
}

/// The same, and notes what the proved call says of each generated question.
fn compare_and_note<Q: Question>(
    call: &Call<Q>,
    fixed: Vec<Q>,
    generated: impl Iterator<Item = Q>,
    mut note: impl FnMut(&Q, &Q::Said),
    options: &Options,
    count: &mut Count,
) {
    let all = if options.gate {
        call.gate
    } else {
        options.cases
    };
    let instead = options.instead(call.wrong, call.wrong_before);
    let proved = instead.unwrap_or(call.proved);
    let programs = [&[("proved", proved)], call.others].concat();
    let mut told_apart = vec![None; call.wrong.len()];
    let mut tally = Tally::default();
    let mut sorts: Vec<(String, usize)> = call.sorts.iter().map(|sort| (sort.clone(), 0)).collect();
    let mut progress = Progress::new();
    let mut differences = 0;
    let mut done = 0;

    let generated_from = fixed.len();
    let questions = fixed.into_iter().chain(generated);
    for (i, question) in questions.take(all).enumerate() {
        let running = Running(&question);
        let right = (call.model)(&question);
        tally.add(&Q::outcomes(&right));
        if let Some(sort) = (call.sort)(&question, &right) {
            sorts[sort].1 += 1;
        }
        let mut same = true;
        for (which, &(name, other)) in programs.iter().enumerate() {
            let said = question.ask(other);
            if which == PROVED && i >= generated_from {
                note(&question, &said);
            }
            if said == right {
                continue;
            }
            same = false;
            if differences < SHOWN {
                println!(
                    "{}: case {i}: {name} says {said}, the model {right}",
                    call.name
                );
                let small =
                    (call.smallest)(&question, &|small| small.ask(other) != (call.model)(small));
                println!("  smallest input found: {small}");
                println!(
                    "  {name} says {}, the model {}",
                    small.ask(other),
                    (call.model)(&small)
                );
            }
            differences += 1;
        }
        count.of(same);
        done += 1;
        // the generated cases have to tell them apart: the fixed ones would do it too easily
        if i >= generated_from {
            for ((_, wrong), told) in call.wrong.iter().zip(&mut told_apart) {
                if told.is_none() && question.ask(*wrong) != right {
                    *told = Some(i + 1 - generated_from);
                }
            }
        }
        drop(running);
        if differences >= GIVEN_UP {
            println!("{}: given up after {differences} differences", call.name);
            break;
        }
        if !options.gate {
            progress.tell(call.name, done, all);
        }
    }

    let seconds = progress.start.elapsed().as_secs_f64();
    println!(
        "{}: {done} cases, {generated_from} of them fixed, seed {}, {seconds:.1} s",
        call.name, options.seed
    );
    tally.print(call.numbers, call.head, &sorts);
    let enough = all >= call.gate;
    print_wrong(call.wrong, call.wrong_before, &told_apart, enough, count);
    if enough {
        tally.check(call.name, all, call.numbers, count);
        for (sort, times) in sorts {
            if call.every_sort && times < LEAST_OF_A_NUMBER {
                println!(
                    "{}: {sort}: {times} times, under {LEAST_OF_A_NUMBER}",
                    call.name
                );
                count.failed += 1;
            }
        }
    } else {
        println!(
            "  under {} cases neither every number nor every wrong model is demanded",
            call.gate
        );
    }
}

/// The wrong models of a call, and after how many cases they were told apart. Before them come
/// those of other calls.
fn print_wrong<T>(
    wrong: &[(&str, T)],
    before: usize,
    told_apart: &[Option<usize>],
    demanded: bool,
    count: &mut Count,
) {
    println!("  wrong model, and after how many generated cases it was told apart");
    for (i, ((fault, _), told)) in wrong.iter().zip(told_apart).enumerate() {
        let number = before + i + 1;
        match told {
            Some(cases) => println!("  {number:>8} {fault:<35} {cases:>7}"),
            None => println!("  {number:>8} {fault:<35} not told apart"),
        }
        if told.is_some() || demanded {
            count.of(told.is_some());
        }
    }
}

fn compare_read(options: &Options, count: &mut Count) {
    let call = Call::<Bytes> {
        name: "read",
        proved: read::proved,
        others: &[("fast", read::fast::<0>)],
        model: |bytes| read::model(&bytes.0),
        wrong: &WRONG,
        wrong_before: 0,
        gate: READ_CASES,
        numbers: &READ_NUMBERS,
        smallest: |bytes, differs| Bytes(shrink(&bytes.0, |bytes| differs(&Bytes(bytes.to_vec())))),
        head: ["depth", "answers"],
        sorts: (1..=16).map(|depth: usize| depth.to_string()).collect(),
        sort: |_, right| (right.extra as usize).checked_sub(1),
        every_sort: false,
    };
    let fixed = cases::always().into_iter().map(Bytes).collect();
    let generated = Inputs::new(options.seed).map(Bytes);
    compare(&call, fixed, generated, options, count);
}

fn compare_sheet(options: &Options, count: &mut Count) {
    let call = Call::<Bytes> {
        name: "sheet",
        proved: sheet::proved,
        others: &[("fast", sheet::fast::<0>)],
        model: |bytes| sheet::model(&bytes.0),
        wrong: &sheet::WRONG,
        wrong_before: WRONG_SHEET,
        gate: SHEET_CASES,
        numbers: &SHEET_NUMBERS,
        smallest: |bytes, differs| {
            Bytes(shrink_sheet(&bytes.0, |bytes| {
                differs(&Bytes(bytes.to_vec()))
            }))
        },
        head: ["13, as the fast check sees it", "cases"],
        sorts: Rule::ALL.map(String::from).into(),
        sort: |bytes, _| {
            check::<0>(&bytes.0)
                .err()
                .map(|broken| broken.rule as usize)
        },
        every_sort: true,
    };
    let fixed = cases::sheets::always().into_iter().map(Bytes).collect();
    let generated = SheetInputs::new(options.seed).map(Bytes);
    compare(&call, fixed, generated, options, count);
}

/// Compares `child` or `name`, with one k for each input.
fn compare_parts(call: &Call<Part>, model: Parts, options: &Options, count: &mut Count) {
    let mut random = Random::new(!options.seed);
    let mut part = |bytes| Part::new(bytes, model, |parts| any_k(&mut random, parts));
    let fixed = cases::always().into_iter().map(&mut part).collect();
    let generated = PartInputs::new(options.seed).map(&mut part);
    compare(call, fixed, generated, options, count);
}

/// The sorts of k, and which one it is.
const SORTS_OF_K: [&str; 6] = ["0", "1", "below", "count", "count+1", "more"];

fn sort_of_k(part: &Part, _: &Outcome) -> Option<usize> {
    let parts = part.parts?;
    Some(match part.k {
        k if k == parts => 3,
        k if k == parts + 1 => 4,
        k if k > parts => 5,
        k @ (0 | 1) => k as usize,
        _ => 2,
    })
}

fn compare_child(options: &Options, count: &mut Count) {
    let call = Call::<Part> {
        name: "child",
        proved: child::proved,
        others: &[("fast", child::fast)],
        model: |part| part.ask(child::model),
        wrong: &child::WRONG,
        wrong_before: WRONG_CHILD,
        gate: PARTS_CASES,
        numbers: &PARTS_NUMBERS,
        smallest: |part, differs| part.smallest(child::model, differs),
        head: ["k", "accepted"],
        sorts: SORTS_OF_K.map(String::from).into(),
        sort: sort_of_k,
        every_sort: false,
    };
    compare_parts(&call, child::model, options, count);
}

fn compare_name(options: &Options, count: &mut Count) {
    let call = Call::<Part> {
        name: "name",
        proved: name::proved,
        others: &[("fast", name::fast)],
        model: |part| part.ask(name::model),
        wrong: &name::WRONG,
        wrong_before: WRONG_NAME,
        gate: PARTS_CASES,
        numbers: &PARTS_NUMBERS,
        smallest: |part, differs| part.smallest(name::model, differs),
        head: ["k", "accepted"],
        sorts: SORTS_OF_K.map(String::from).into(),
        sort: sort_of_k,
        every_sort: false,
    };
    compare_parts(&call, name::model, options, count);
}

/// Compares `fill` or `join`, with several lent buffers for each pair of inputs.
fn compare_pairs(
    call: &Call<Pair>,
    whole: Whole,
    fixed: Vec<(Vec<u8>, Vec<u8>)>,
    generated: impl Iterator<Item = (Vec<u8>, Vec<u8>)>,
    options: &Options,
    count: &mut Count,
) {
    let pair = |(first, second)| Pair::new(first, second, whole);
    let fixed = fixed.into_iter().map(pair).collect();
    compare(call, fixed, generated.map(pair), options, count);
}

fn compare_fill(options: &Options, count: &mut Count) {
    let call = Call::<Pair> {
        name: "fill",
        proved: fill::proved,
        others: &[("fast", fill::fast::<0>)],
        model: Pair::right,
        wrong: &fill::WRONG,
        wrong_before: WRONG_FILL,
        gate: PAIR_CASES,
        numbers: &FILL_NUMBERS,
        smallest: |pair, differs| pair.smallest(fill::whole, differs),
        head: ["answer", "cases"],
        sorts: ["the template", "another", "of 2,048 bytes"]
            .map(String::from)
            .into(),
        sort: |pair, _| match &pair.whole {
            Ok(answer) if answer.len() == 2048 => Some(2),
            Ok(answer) => Some((*answer != pair.first) as usize),
            Err(_) => None,
        },
        every_sort: true,
    };
    let generated = FillInputs::new(options.seed);
    let fixed = cases::fills::always_fill();
    compare_pairs(&call, fill::whole, fixed, generated, options, count);
}

fn compare_join(options: &Options, count: &mut Count) {
    let call = Call::<Pair> {
        name: "join",
        proved: join::proved,
        others: &[("fast", join::fast::<0>)],
        model: Pair::right,
        wrong: &join::WRONG,
        wrong_before: WRONG_JOIN,
        gate: PAIR_CASES,
        numbers: &JOIN_NUMBERS,
        smallest: |pair, differs| pair.smallest(join::whole, differs),
        head: ["answer or 17", "cases"],
        sorts: ["one of the two", "another", "17 by entries", "17 by bytes"]
            .map(String::from)
            .into(),
        sort: |pair, _| match &pair.whole {
            Ok(joined) => Some((*joined != pair.first && *joined != pair.second) as usize),
            Err(refusal) if refusal.number != 17 => None,
            // 64 entries are the most that there could be
            Err(refusal) => Some(if refusal.place <= 64 { 2 } else { 3 }),
        },
        every_sort: true,
    };
    let generated = JoinInputs::new(options.seed);
    let fixed = cases::fills::always_join();
    compare_pairs(&call, join::whole, fixed, generated, options, count);
}

/// Compares `write` or `table`, with several lent buffers for each input.
fn compare_singles(
    call: &Call<Single>,
    whole: WholeOf,
    fixed: Vec<Vec<u8>>,
    generated: impl Iterator<Item = Vec<u8>>,
    options: &Options,
    count: &mut Count,
) {
    let single = |bytes| Single::new(bytes, whole);
    let fixed = fixed.into_iter().map(single).collect();
    compare(call, fixed, generated.map(single), options, count);
}

fn compare_write(options: &Options, count: &mut Count) {
    let mut sorts: Vec<String> = fast_write::Rule::ALL.map(String::from).into();
    sorts.extend(["answered: as the way back makes it", "answered: another"].map(String::from));
    let call = Call::<Single> {
        name: "write",
        proved: write::proved,
        others: &[("fast", write::fast)],
        model: Single::right,
        wrong: &write::WRONG,
        wrong_before: WRONG_WRITE,
        gate: TABLE_CASES,
        numbers: &WRITE_NUMBERS,
        smallest: |single, differs| {
            let shrink =
                |bytes: &[u8], differs: &dyn Fn(&[u8]) -> bool| shrink_table(bytes, differs);
            single.smallest(write::whole, shrink, differs)
        },
        head: ["9 to 11, as the fast writer sees it", "cases"],
        sorts,
        sort: |single, _| match (&single.whole, fast_write::check(&single.bytes)) {
            (Ok(answer), _) => {
                let own = table::whole(answer).is_ok_and(|own| own == single.bytes);
                Some(RULES + !own as usize)
            }
            (_, Err(broken)) => Some(broken.rule as usize),
            _ => None,
        },
        every_sort: true,
    };
    let generated = WriteInputs::new(options.seed);
    let fixed = always_write();
    compare_singles(&call, write::whole, fixed, generated, options, count);
}

fn compare_table(options: &Options, count: &mut Count) {
    let call = Call::<Single> {
        name: "table",
        proved: table::proved,
        others: &[("fast", table::fast)],
        model: Single::right,
        wrong: &table::WRONG,
        wrong_before: WRONG_TABLE,
        gate: TABLE_CASES,
        numbers: &TABLE_NUMBERS,
        smallest: |single, differs| {
            let shrink = |bytes: &[u8], differs: &dyn Fn(&[u8]) -> bool| shrink(bytes, differs);
            single.smallest(table::whole, shrink, differs)
        },
        head: ["bytes of the table", "answers"],
        sorts: ["14", "under 100", "under 1,000", "under 10,000", "more"]
            .map(String::from)
            .into(),
        sort: |single, _| match single.whole.as_ref().ok()?.len() {
            0..=14 => Some(0),
            15..=99 => Some(1),
            100..=999 => Some(2),
            1000..=9999 => Some(3),
            _ => Some(4),
        },
        every_sort: true,
    };
    let generated = EncodingInputs::new(options.seed);
    let fixed = cases::tables::always_table();
    compare_singles(&call, table::whole, fixed, generated, options, count);
}

/// The sorts of records: the rules that a table can break, but for the second byte, which they have not.
/// How many they are stands for the three rules of the first section: they are always there.
fn sorts_of_records() -> Vec<String> {
    let mut sorts = fast_write::Rule::ALL.to_vec();
    sorts.remove(SECOND_BYTE);
    sorts.splice(..3, ["no records", "6,145 to 65,535", "65,536 and more"]);
    sorts.extend([
        "answered: one record",
        "answered: 2 to 6,143",
        "answered: 6,144",
    ]);
    sorts.into_iter().map(String::from).collect()
}

const SECOND_BYTE: usize = fast_write::Rule::SecondByte as usize;

fn sort_of_records(records: &Records, _: &AllLent) -> Option<usize> {
    let RecordTable { nodes, rest } = &records.table;
    let count = nodes.len();
    match fast_write::check_records(nodes, rest) {
        Err(broken) => Some(match broken.rule as usize {
            0..=2 => (count > 0) as usize + (count > 65_535) as usize,
            rule => rule - (rule > SECOND_BYTE) as usize,
        }),
        Ok(()) if records.whole.is_ok() => {
            Some(RULES - 1 + (count > 1) as usize + (count == 6144) as usize)
        }
        Ok(()) => None,
    }
}

/// Compares `write_records` on every input of `write` that has its form, and on others; with `write`, too.
fn compare_records(options: &Options, count: &mut Count) {
    let own = always_records();
    let call = Call::<Records> {
        name: "write_records",
        proved: write_records::proved,
        others: &[
            ("fast", write_records::fast),
            ("the proved write, in bytes,", write_records::in_bytes),
        ],
        model: Records::right,
        wrong: &write_records::WRONG,
        wrong_before: WRONG_RECORDS,
        // as many generated ones as for `write`, or more
        gate: TABLE_CASES + own.len(),
        numbers: &WRITE_NUMBERS,
        smallest: |records, differs| records.smallest(write_records::whole, differs),
        head: ["9 to 11, as the fast writer sees it", "cases"],
        sorts: sorts_of_records(),
        sort: sort_of_records,
        every_sort: true,
    };
    let records = |table| Records::new(table, write_records::whole);
    let fixed = always_write();
    let fixed = fixed.iter().filter_map(|bytes| RecordTable::of(bytes));
    let fixed = fixed.chain(own).map(records).collect();
    let generated = RecordInputs::new(options.seed).map(records);
    compare(&call, fixed, generated, options, count);
}

/// Compares the piece reader on inputs of `read`, and on longer ones, each cut everywhere; with `read`, too.
fn compare_pieces(options: &Options, count: &mut Count) {
    let call = Call::<Fed> {
        name: "pieces",
        proved: pieces::proved,
        others: &[
            ("fast", pieces::fast::<0>),
            ("the proved read, of all parts,", pieces::by_read),
        ],
        model: Fed::right,
        wrong: &pieces::WRONG,
        wrong_before: WRONG_PIECES,
        gate: PIECES_CASES,
        numbers: &READ_NUMBERS,
        smallest: Fed::smallest,
        head: ["depth", "answers"],
        sorts: (1..=16).map(|depth: usize| depth.to_string()).collect(),
        sort: |fed, _| (fed.whole.extra as usize).checked_sub(1),
        every_sort: false,
    };
    let fixed = cases::always().into_iter().chain(always_pieces());
    let mut cutter = Cutter::new(options.seed);
    let fixed = fixed.map(|bytes| cutter.cut(bytes)).collect();
    let mut cutter = Cutter::new(options.seed);
    let generated = PieceInputs::new(options.seed).map(|bytes| cutter.cut(bytes));
    let mut cuts = CutCount::default();
    let note = |fed: &Fed, said: &AllFinished| cuts.add(fed, said);
    compare_and_note(&call, fixed, generated, note, options, count);
    cuts.print(count);
}

/// How the generated inputs were cut, as the proved reader was fed with them.
#[derive(Default)]
struct CutCount {
    inputs: usize,
    /// the ways in which they were fed
    ways: usize,
    /// the inputs that were cut in two at each of their places, and those that were cut into bytes
    in_two: usize,
    into_bytes: usize,
}

impl CutCount {
    fn add(&mut self, fed: &Fed, said: &AllFinished) {
        let length = fed.bytes.len();
        self.inputs += 1;
        self.ways += said.cuttings.len();
        if let Some(everywhere) = said.everywhere {
            self.ways += everywhere.in_two + 1;
            self.in_two += (everywhere.in_two == length + 1) as usize;
            self.into_bytes += (everywhere.single_bytes == length) as usize;
        }
    }

    /// Each input must have been cut in two at each of its places, and into bytes.
    fn print(&self, count: &mut Count) {
        let CutCount {
            inputs,
            ways,
            in_two,
            into_bytes,
        } = self;
        println!("  {inputs} generated inputs were fed in {ways} ways");
        println!("  {in_two} were cut in two at each of their places, {into_bytes} into bytes");
        count.of(in_two == inputs);
        count.of(into_bytes == inputs);
    }
}

/// What a proved call says that makes a `Vec`.
type Told = Result<Vec<u8>, shiulbart::Refusal>;

/// Laws over whole answers of the proved calls: how often each was looked at, and how often something
/// was answered.
struct Laws<'a, const N: usize> {
    looked_at: [(&'static str, usize, usize); N],
    count: &'a mut Count,
    shown: usize,
    start: Instant,
}

impl<'a, const N: usize> Laws<'a, N> {
    fn new(laws: [&'static str; N], count: &'a mut Count) -> Laws<'a, N> {
        Laws {
            looked_at: laws.map(|law| (law, 0, 0)),
            count,
            shown: 0,
            start: Instant::now(),
        }
    }

    /// Two answers or refusals that must be the same, and the inputs that they are for.
    fn look(&mut self, which: usize, left: Told, right: Told, on: &[&[u8]]) {
        let (law, times, answered) = &mut self.looked_at[which];
        *times += 1;
        *answered += left.is_ok() as usize;
        self.count.of(left == right);
        if left != right && self.shown < SHOWN {
            self.shown += 1;
            println!("{law}: {left:02X?} and {right:02X?}");
            let on: Vec<String> = on.iter().map(|bytes| hex(bytes)).collect();
            println!("  on {}", on.join(" | "));
        }
    }

    fn print(self, inputs: &str, all: usize, options: &Options) {
        let seconds = self.start.elapsed().as_secs_f64();
        println!(
            "laws: {all} {inputs}, seed {}, {seconds:.1} s",
            options.seed
        );
        for (law, times, answered) in self.looked_at {
            println!("  {law:>16}: looked at {times:>6} times, {answered:>6} of them answered");
            if all >= CHAINS && answered < all / LEAST_ANSWERED {
                println!("laws: {law}: under 1 case in {LEAST_ANSWERED} was answered");
                self.count.failed += 1;
            }
        }
    }
}

/// What must hold of `fill` and `join`, whatever they answer: filling twice is filling with the joined
/// sheet, it does not matter which two of three sheets are joined first, and the empty sheet changes
/// nothing. Where the first stage is answered, the refusals must be the same, too.
fn compare_chains(options: &Options, count: &mut Count) {
    const EMPTY: [u8; 4] = [0; 4];
    let (fill, join) = (shiulbart::fill_to_vec, shiulbart::join_to_vec);
    let all = if options.gate { CHAINS } else { options.cases };
    let mut laws = Laws::new(["fill twice", "join three", "empty sheet"], count);
    for [template, a, b, c] in Chains::new(options.seed).take(all) {
        let on = [&template[..], &a, &b, &c];
        let (ab, bc) = (join(&a, &b), join(&b, &c));
        if let (Ok(ab), Ok(once)) = (&ab, fill(&template, &a)) {
            laws.look(0, fill(&once, &b), fill(&template, ab), &on);
        }
        if let (Ok(ab), Ok(bc)) = (&ab, &bc) {
            laws.look(1, join(ab, &c), join(&a, bc), &on);
        }
        if shiulbart::read(&template).is_ok() {
            laws.look(2, fill(&template, &EMPTY), Ok(template.clone()), &on);
        }
        if shiulbart::sheet(&a).is_ok() {
            laws.look(2, join(&a, &EMPTY), Ok(a.clone()), &on);
            laws.look(2, join(&EMPTY, &a), Ok(a.clone()), &on);
        }
    }
    laws.print("templates with three sheets", all, options);
}

/// What must hold of `write`, `write_records` and `table`, whatever they answer: the table of an encoding is
/// written as that encoding; what a table is written as has a table that is written as the same; the table
/// of an encoding, written and made again, is the same bytes; and a table that is taken apart and put
/// together is what it was, and is written as the same where it lends its nodes.
fn compare_tables(options: &Options, count: &mut Count) {
    let (write, table) = (shiulbart::write_to_vec, shiulbart::table_to_vec);
    let all = if options.gate { CHAINS } else { options.cases };
    let laws = [
        "table, write",
        "write, back",
        "made again",
        "taken apart",
        "nodes lent",
    ];
    let mut laws = Laws::new(laws, count);
    for encoding in EncodingInputs::new(options.seed.wrapping_add(3)).take(all) {
        if let Ok(own) = table(&encoding) {
            let on = [&encoding[..]];
            laws.look(0, write(&own), Ok(encoding.clone()), &on);
            laws.look(2, write(&own).and_then(|again| table(&again)), Ok(own), &on);
        }
    }
    for bytes in WriteInputs::new(options.seed.wrapping_add(3)).take(all) {
        let (said, on) = (write(&bytes), [&bytes[..]]);
        if let Ok(encoding) = &said {
            let again = table(encoding).and_then(|own| write(&own));
            laws.look(1, again, said.clone(), &on);
        }
        let apart = shiulbart::Table::parse(&bytes);
        if let Ok(apart) = &apart {
            let lent = shiulbart::write_records_to_vec(apart.node_records(), &apart.rest());
            laws.look(4, lent, said.clone(), &on);
        }
        let right = match said {
            Err(refusal) if (9..=11).contains(&refusal.number()) => Err(refusal),
            _ => Ok(bytes.clone()),
        };
        laws.look(3, apart.map(|table| table.to_bytes()), right, &on);
    }
    laws.print("encodings and as many tables", all, options);
}

fn main() -> ExitCode {
    let Some(options) = options() else {
        eprintln!("{USAGE}");
        return ExitCode::from(2);
    };
    let mut count = Count::default();
    compare_read(&options, &mut count);
    compare_child(&options, &mut count);
    compare_name(&options, &mut count);
    compare_sheet(&options, &mut count);
    compare_fill(&options, &mut count);
    compare_join(&options, &mut count);
    compare_write(&options, &mut count);
    compare_table(&options, &mut count);
    compare_records(&options, &mut count);
    compare_pieces(&options, &mut count);
    compare_chains(&options, &mut count);
    compare_tables(&options, &mut count);
    println!("{} passed, {} failed", count.passed, count.failed);
    match count.failed {
        0 => ExitCode::SUCCESS,
        _ => ExitCode::FAILURE,
    }
}
