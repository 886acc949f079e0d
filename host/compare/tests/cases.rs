//! The inputs are the same on every machine, and reach every depth and number.

use compare::cases::fills::{Chains, FillInputs, JoinInputs};
use compare::cases::pieces::{always_pieces, too_long, Cutter, PieceInputs, BETWEEN, LONG};
use compare::cases::sheets::{symbol_of, SheetInputs};
use compare::cases::table::{doubled, largest, m4_table, wrapping, RecordTable, Table, M4};
use compare::cases::tables::records::{always_records, RecordInputs};
use compare::cases::tables::{always_write, EncodingInputs, WriteInputs};
use compare::cases::{any_k, Inputs, PartInputs};
use compare::question::{feed, Reader};
use compare::random::Random;
use compare::{fill, join, read, sheet, table, write, Outcome};
use std::cell::RefCell;
use std::collections::HashSet;

#[test]
fn same_seed_same_inputs() {
    let inputs = |seed| Inputs::new(seed).take(2000).collect::<Vec<_>>();
    assert_eq!(inputs(1), inputs(1));
    assert_ne!(inputs(1), inputs(2));
    let inputs = |seed| PartInputs::new(seed).take(2000).collect::<Vec<_>>();
    assert_eq!(inputs(1), inputs(1));
    assert_ne!(inputs(1), inputs(2));
    let inputs = |seed| SheetInputs::new(seed).take(500).collect::<Vec<_>>();
    assert_eq!(inputs(1), inputs(1));
    assert_ne!(inputs(1), inputs(2));
    let inputs = |seed| FillInputs::new(seed).take(500).collect::<Vec<_>>();
    assert_eq!(inputs(1), inputs(1));
    assert_ne!(inputs(1), inputs(2));
    let inputs = |seed| JoinInputs::new(seed).take(200).collect::<Vec<_>>();
    assert_eq!(inputs(1), inputs(1));
    assert_ne!(inputs(1), inputs(2));
    let inputs = |seed| Chains::new(seed).take(200).collect::<Vec<_>>();
    assert_eq!(inputs(1), inputs(1));
    assert_ne!(inputs(1), inputs(2));
    let inputs = |seed| WriteInputs::new(seed).take(500).collect::<Vec<_>>();
    assert_eq!(inputs(1), inputs(1));
    assert_ne!(inputs(1), inputs(2));
    let inputs = |seed| EncodingInputs::new(seed).take(500).collect::<Vec<_>>();
    assert_eq!(inputs(1), inputs(1));
    assert_ne!(inputs(1), inputs(2));
    let inputs = |seed| RecordInputs::new(seed).take(500).collect::<Vec<_>>();
    assert!(inputs(1) == inputs(1));
    assert!(inputs(1) != inputs(2));
    let inputs = |seed| PieceInputs::new(seed).take(500).collect::<Vec<_>>();
    assert!(inputs(1) == inputs(1));
    assert!(inputs(1) != inputs(2));
    let cuttings = |seed| {
        let mut cutter = Cutter::new(seed);
        let inputs = PieceInputs::new(1).take(500);
        let fed = inputs.map(|bytes| cutter.cut(bytes));
        fed.map(|fed| (fed.cuttings, fed.after)).collect::<Vec<_>>()
    };
    assert!(cuttings(1) == cuttings(1));
    assert!(cuttings(1) != cuttings(2));
}

/// The numbers that splitmix64 gives for this seed wherever it is published.
#[test]
fn same_numbers_on_every_machine() {
    let mut random = Random::new(1_234_567);
    for number in [
        6_457_827_717_110_365_317,
        3_203_168_211_198_807_973,
        9_817_491_932_198_370_423,
        4_593_380_528_125_082_431,
        16_408_922_859_458_223_821,
    ] {
        assert_eq!(random.number(), number);
    }
}

#[test]
fn every_number_and_depth() {
    let mut numbers = [0; 9];
    let mut depths = [0; 17];
    for bytes in Inputs::new(1).take(20_000) {
        let outcome = read::model(&bytes);
        numbers[outcome.number as usize] += 1;
        depths[outcome.extra as usize] += 1;
    }
    assert!(numbers.iter().all(|&times| times > 0), "{numbers:?}");
    assert!(depths.iter().all(|&times| times > 0), "{depths:?}");
}

#[test]
fn limits_are_among_them() {
    let lengths: Vec<usize> = Inputs::new(1)
        .take(20_000)
        .map(|bytes| bytes.len())
        .collect();
    for length in [0, 1, 2, 4, 2047, 2048, 2049] {
        assert!(lengths.contains(&length), "no input of {length} bytes");
    }
}

#[test]
fn inputs_for_parts_are_mostly_accepted() {
    let inputs = PartInputs::new(1).take(4000);
    let accepted = inputs.filter(|bytes| read::model(bytes).number == 0);
    assert!(accepted.count() > 2000);
}

#[test]
fn every_sort_of_k() {
    let mut random = Random::new(1);
    for count in [0, 1, 2, 2041] {
        let ks: Vec<u64> = (0..2000).map(|_| any_k(&mut random, count)).collect();
        let telling = [0, 1, count, count + 1, 1 << 32, 1 << 63, u64::MAX];
        assert!(telling.iter().all(|k| ks.contains(k)), "{count}");
        assert!(ks.iter().filter(|&&k| k < count).count() >= 400 || count == 0);
        assert!(count == 0 || ks.contains(&(count - 1)));
    }
}

#[test]
fn sheets_of_every_size() {
    let mut sound = 0;
    let mut counts = [0; 33];
    let mut classes = [0; 15]; // by the number of binary digits, less one
    let mut totals = Vec::new();
    let mut lengths = Vec::new();
    for bytes in SheetInputs::new(1).take(20_000) {
        let outcome = sheet::model(&bytes);
        if outcome.number == 0 {
            sound += 1;
            counts[outcome.extra as usize] += 1;
            classes[outcome.length.max(1).ilog2() as usize] += 1;
            totals.push(outcome.length);
            let entries = bytes[2..].chunks(4).take(outcome.extra as usize);
            lengths.extend(entries.map(|entry| u16::from_le_bytes([entry[2], entry[3]])));
        }
    }
    assert!(sound > 5000, "{sound}");
    assert!(counts.iter().all(|&times| times > 20), "{counts:?}");
    assert!(classes.iter().all(|&times| times > 5), "{classes:?}");
    for total in [0, 1, 32, 16_383, 16_384] {
        assert!(totals.contains(&total), "no sheet of {total} bytes");
    }
    for length in [1, 4, 5, 2047, 2048] {
        assert!(lengths.contains(&length), "no entry of {length} bytes");
    }
}

#[test]
fn symbols_of_every_length() {
    for bytes in 5..=2048 {
        let symbol = symbol_of(bytes);
        assert_eq!(symbol.len(), bytes);
        assert_eq!(read::model(&symbol).number, 0);
    }
    assert_eq!(symbol_of(2049).len(), 2049);
}

/// Made shapes and joined sheets of the lengths at which a limit can be missed by one.
#[test]
fn fills_and_joins_at_the_limits() {
    let lengths: Vec<usize> = FillInputs::new(1)
        .take(3000)
        .filter_map(|(template, sheet)| fill::whole(&template, &sheet).ok())
        .map(|made| made.len())
        .collect();
    for length in [1, 4, 5, 2047, 2048] {
        assert!(lengths.contains(&length), "nothing of {length} bytes made");
    }
    let mut counts = [0; 33];
    let mut totals = Vec::new();
    for (first, second) in JoinInputs::new(1).take(3000) {
        if let Ok(joined) = join::whole(&first, &second) {
            counts[joined[0] as usize] += 1;
            totals.push(joined.len() - 4 - 4 * joined[0] as usize);
        }
    }
    assert!(counts.iter().all(|&times| times > 0), "{counts:?}");
    for total in [0, 1, 16_383, 16_384] {
        assert!(totals.contains(&total), "no joined sheet of {total} bytes");
    }
}

#[test]
fn the_cards_table() {
    let bytes = m4_table().bytes();
    assert_eq!(bytes.len(), 54);
    assert_eq!(table::whole(&M4).unwrap(), bytes);
    assert_eq!(write::whole(&bytes).unwrap(), M4);
    assert_eq!(largest([0; 4]).bytes().len(), 71_688);
    // 40 nodes that mean 2^39 blanks, and more bytes still
    let doubled = doubled(39);
    assert_eq!(doubled.nodes.len(), 40);
    assert!(doubled.extent().0 > 1 << 39);
}

/// Tables that mean a little over 2^16 and 2^32 bytes.
#[test]
fn lengths_that_wrap() {
    let lengths: Vec<u64> = wrapping().iter().map(|table| table.extent().0).collect();
    assert_eq!(lengths, [65_540, 66_536, (1 << 32) + 5]);
    for table in wrapping() {
        assert_eq!(write::whole(&table.bytes()).unwrap_err().number, 16);
    }
}

/// A table is taken apart and put together, and what its nodes mean is as long and deep as the model
/// makes it.
#[test]
fn tables_apart() {
    let mut answered = 0;
    for bytes in WriteInputs::new(1).take(3000).chain(always_write()) {
        let Some(table) = Table::apart(&bytes) else {
            continue;
        };
        assert!(table.bytes() == bytes);
        let (length, depth) = table.extent();
        match write::whole(&bytes) {
            Ok(encoding) => {
                answered += 1;
                let accepted = read::model(&encoding);
                assert_eq!(accepted.length as u64, length);
                assert_eq!(accepted.extra as u64, depth);
            }
            Err(refusal) if refusal.number == 15 => assert!(depth > 16),
            Err(refusal) if refusal.number == 16 => assert!(length > 2048),
            Err(_) => (),
        }
    }
    assert!(answered > 1000, "{answered}");
}

/// Tables and encodings of the sizes at which a limit can be missed by one.
#[test]
fn tables_at_the_limits() {
    let mut lengths = Vec::new();
    let mut depths = [0; 20];
    let mut sizes: [Vec<usize>; 4] = Default::default();
    let mut shared = 0;
    for bytes in WriteInputs::new(1).take(8000) {
        let said = write::whole(&bytes);
        let Some(table) = Table::apart(&bytes) else {
            continue;
        };
        let counts = [
            table.nodes.len(),
            table.links.len(),
            table.names.len(),
            table.text.len(),
        ];
        (0..4).for_each(|section| sizes[section].push(counts[section]));
        let (length, depth) = table.extent();
        match said {
            Ok(encoding) => {
                lengths.push(length);
                depths[depth as usize] += 1;
                let own = table::whole(&encoding).unwrap();
                shared += (own.len() > bytes.len()) as usize;
            }
            Err(refusal) if matches!(refusal.number, 15 | 16) => {
                lengths.push(length);
                depths[depth.min(19) as usize] += 1;
            }
            Err(_) => (),
        }
    }
    for length in [1, 4, 5, 2046, 2047, 2048, 2049, 2050] {
        assert!(lengths.contains(&length), "nothing of {length} bytes");
    }
    assert!(depths[1..].iter().all(|&times| times > 0), "{depths:?}");
    for (section, most) in [6144, 6144, 2048, 2048].into_iter().enumerate() {
        for count in [most - 1, most, most + 1] {
            assert!(sizes[section].contains(&count), "{section}: no {count}");
        }
    }
    assert!(shared > 300, "{shared}");
}

/// Every table for `write` is asked with its nodes as records, if they can be; and what has no such form
/// is cut in its first section, or has a second byte that is not 0.
#[test]
fn every_table_as_records() {
    let (mut same, mut cut, mut second, mut own) = (0, 0, 0, 0);
    for (bytes, records) in WriteInputs::new(1).zip(RecordInputs::new(1)).take(5000) {
        if records.bytes().as_ref() == Some(&bytes) {
            same += 1;
            continue;
        }
        own += 1;
        let count = bytes
            .get(..2)
            .map(|two| u16::from_le_bytes([two[0], two[1]]) as usize);
        match count.and_then(|count| bytes.get(2..2 + 6 * count)) {
            None => cut += 1,
            Some(nodes) => second += nodes.chunks(6).any(|node| node[1] != 0) as usize,
        }
    }
    assert_eq!(own, cut + second);
    assert!(
        same > 4000 && cut > 50 && second > 50,
        "{same} {cut} {second}"
    );
}

/// No records, and as many as matter: each with a rest that is good, and with one that is broken.
#[test]
fn records_of_every_number() {
    let mut seen = [[0; 2]; 6];
    for table in RecordInputs::new(1).take(4000).chain(always_records()) {
        let sort = match table.nodes.len() {
            0 => 0,
            6144 => 1,
            6145 => 2,
            65_535 => 3,
            65_536 => 4,
            65_537..=71_680 => 5,
            _ => continue,
        };
        // a rest that is good behind one Int
        let one = RecordTable {
            nodes: vec![Default::default()],
            rest: table.rest,
        };
        let good = one
            .bytes()
            .is_some_and(|bytes| write::whole(&bytes).is_ok());
        seen[sort][good as usize] += 1;
    }
    let enough = |seen: &[usize; 2]| seen.iter().all(|&times| times >= 5);
    assert!(seen.iter().all(enough), "{seen:?}");
}

/// Records and bytes are two forms of a table.
#[test]
fn records_in_bytes() {
    for table in RecordInputs::new(2).take(2000) {
        match table.bytes() {
            Some(bytes) => assert!(RecordTable::of(&bytes) == Some(table)),
            None => assert!(table.nodes.len() > 65_535),
        }
    }
}

#[test]
fn encodings_for_tables_are_mostly_accepted() {
    let inputs = EncodingInputs::new(1).take(4000);
    let made: Vec<usize> = inputs
        .filter_map(|bytes| table::whole(&bytes).ok())
        .map(|table| table.len())
        .collect();
    assert!(made.len() > 2000);
    assert!(made.iter().any(|&length| length > 50_000));
}

/// Every input for `read` that is not long, in its order, some of the long ones, and between them some that
/// are too long.
#[test]
fn inputs_for_read_in_parts() {
    let mut all = PieceInputs::new(1).enumerate();
    let mut long = [0; 2];
    let mut next = || loop {
        let (i, bytes) = all.next().unwrap();
        match i % (BETWEEN + 1) == BETWEEN {
            true => assert!(bytes.len() > 2048),
            false => return bytes,
        }
    };
    let mut taken = next();
    for bytes in Inputs::new(1).take(20_000) {
        let same = bytes == taken;
        assert!(same || bytes.len() > LONG);
        long[same as usize] += (bytes.len() > LONG) as usize;
        if same {
            taken = next();
        }
    }
    assert!(long[1] > 100 && long[0] > 10 * long[1], "{long:?}");
}

/// Inputs that are too long by one and by many: in front what would be accepted, each number but 8, and
/// a root that the bytes after it end; and as many bytes as wrap to those of an accepted front.
#[test]
fn longer_inputs() {
    let mut numbers = [0; 9];
    let mut lengths = Vec::new();
    let mut wraps = 0;
    let mut random = Random::new(1);
    for _ in 0..2000 {
        let bytes = too_long(&mut random);
        assert!(bytes.len() > 2048);
        let wrapped = bytes.len() % 65_536;
        wraps += (bytes.len() > 65_535 && read::model(&bytes[..wrapped]).number == 0) as usize;
        lengths.push(bytes.len());
        // the front without what fills it up to its length
        let last = bytes[bytes.len() - 1];
        let filler = bytes.iter().rev().take_while(|&&byte| byte == last);
        let front = bytes.len() - filler.count();
        let said = [front, front + 1].map(|stop| read::model(&bytes[..stop.min(2048)]).number);
        said.iter()
            .for_each(|&number| numbers[number as usize] += 1);
    }
    assert!(numbers[..8].iter().all(|&times| times > 0), "{numbers:?}");
    assert!(wraps > 10, "{wraps}");
    for length in [2049, 2050, 65_535, 65_536, 65_537] {
        assert!(lengths.contains(&length), "no input of {length} bytes");
    }
    assert!(always_pieces().iter().any(|bytes| bytes.len() == 2049));
}

thread_local! {
    /// each state of a `Listed` that was compared
    static LISTED: RefCell<HashSet<Vec<usize>>> = RefCell::default();
}

/// A reader whose state is how long its parts are. It is equal to any other.
#[derive(Clone)]
struct Listed(Vec<usize>);

impl PartialEq for Listed {
    fn eq(&self, other: &Listed) -> bool {
        let both = [self, other].map(|reader| reader.0.clone());
        LISTED.with_borrow_mut(|listed| listed.extend(both));
        true
    }
}

impl Reader for Listed {
    fn start() -> Self {
        Listed(vec![])
    }

    fn part(&mut self, part: &[u8]) {
        self.0.push(part.len());
    }

    fn finish(&mut self) -> Outcome {
        Outcome::answer(0, 0)
    }
}

/// An input is fed cut at several places, with empty parts among them, in two at each of its places, and
/// byte by byte.
#[test]
fn every_way_to_cut() {
    let mut cutter = Cutter::new(1);
    let mut empty = 0;
    let inputs = PieceInputs::new(1).filter(|bytes| bytes.len() < 600);
    for bytes in inputs.take(3000) {
        let length = bytes.len();
        let fed = cutter.cut(bytes);
        let said = feed::<Listed>(&fed).everywhere.unwrap();
        assert_eq!((said.in_two, said.single_bytes), (length + 1, length));
        let listed = LISTED.take();
        let was_fed = |parts: Vec<usize>| assert!(listed.contains(&parts), "{parts:?} on {fed}");
        for cuts in &fed.cuttings {
            let own = cuts.parts(&fed.bytes);
            assert!(own.concat() == fed.bytes);
            let lengths: Vec<usize> = own.iter().map(|part| part.len()).collect();
            empty += lengths.contains(&0) as usize;
            was_fed(lengths);
        }
        for place in 0..=length {
            was_fed(vec![place, length - place]);
            was_fed(vec![1; place]);
        }
    }
    assert!(empty > 1000, "{empty}");
}
