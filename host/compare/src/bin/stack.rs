//! The peak stack of each call on the stored worst inputs; fails if one takes more than it may, or if
//! a board's whole job does.

use compare::cases::table::RecordTable;
use compare::question::Reader;
use compare::stack::{
    peak, worst_for_fill, worst_for_join, worst_for_parts, worst_for_pieces, worst_for_read,
    worst_for_records, worst_for_sheet, worst_for_table, worst_for_write, worst_ks, Worst, BOARD,
    BUFFERS_OF_A, BUFFERS_OF_B, LONGEST, MOST_FOR_ANOTHER, MOST_FOR_PIECES, MOST_FOR_READ,
    MOST_FOR_RECORDS, MOST_FOR_TABLES, SHEET,
};
use compare::{child, fill, join, name, read, sheet, table, write, write_records};
use compare::{Lends, Outcome, Parts};
use shiulbart::Pieces;
use std::hint::black_box;
use std::process::ExitCode;

/// A call that is measured.
type Call = fn(&[u8], u64);
type LentCall = fn(&[u8], &[u8], &mut [u8]);

/// What passed and failed.
#[derive(Default)]
struct Count {
    passed: usize,
    failed: usize,
}

impl Count {
    /// A call's peak stack on an input.
    fn of(&mut self, call: &str, taken: usize, most: usize, input: &str, outcome: Outcome) {
        // 0 would say that the call was not seen at all
        let within = (1..=most).contains(&taken);
        let word = if within { "" } else { ", OVER" };
        println!("{call:<13} {taken:>6} bytes{word}  {input} ({outcome})");
        self.add(within);
    }

    /// What a board's whole job takes: the buffers that it lends, and the stack of one call at a time.
    fn board(&mut self, board: &str, buffers: usize, stack: usize) {
        let all = buffers + stack;
        let word = if all <= BOARD { "" } else { ", OVER" };
        println!("{board}: {buffers} bytes lent and {stack} of stack are {all} of {BOARD}{word}");
        self.add(all <= BOARD);
    }

    fn add(&mut self, passed: bool) {
        match passed {
            true => self.passed += 1,
            false => self.failed += 1,
        }
    }
}

/// The most that `fill` or `join` takes.
fn lent(name: &str, proved: Lends, call: LentCall, worst: Vec<Worst>, count: &mut Count) -> usize {
    let mut most = 0;
    let mut out = vec![0; SHEET];
    for (input, first, second) in worst {
        let outcome = proved(&first, &second, &mut out);
        let taken = peak(|out| call(&first, &second, out));
        count.of(name, taken, MOST_FOR_ANOTHER, &input, outcome);
        most = most.max(taken);
    }
    most
}

/// `write`, `write_records` or `table`, each asked what it says and, alone, measured.
fn single<T: Sync>(
    (name, most): (&str, usize),
    proved: fn(&T, &mut [u8]) -> Outcome,
    call: fn(&T, &mut [u8]),
    worst: Vec<(String, T)>,
    count: &mut Count,
) {
    let mut out = vec![0; LONGEST];
    for (input, own) in worst {
        let outcome = proved(&own, &mut out);
        let taken = peak(|out| call(&own, out));
        count.of(name, taken, most, &input, outcome);
    }
}

/// The three calls of the piece reader: the parts of each input, one call after the other, as a caller makes
/// them whose state goes in and out by value, and the finish after them.
fn pieces(count: &mut Count) {
    let mut of = |call: &str, taken: usize, input: &str, mut reader: Pieces| {
        let outcome = Reader::finish(&mut reader);
        count.of(call, taken, MOST_FOR_PIECES, input, outcome);
    };
    let fed = |bytes: &[u8]| {
        let mut reader = Pieces::new();
        reader.feed(bytes);
        reader
    };
    let taken = peak(|_| {
        black_box(&Pieces::new());
    });
    of("pieces start", taken, "no part", Pieces::new());
    for (input, bytes) in worst_for_pieces() {
        let half = bytes.len() / 2;
        let ways = [
            ("in one part", 0, vec![&bytes[..]]),
            ("the second half", half, vec![&bytes[half..]]),
            ("in parts of one byte", 0, bytes.chunks(1).collect()),
        ];
        for (way, from, parts) in ways {
            if parts.is_empty() {
                continue;
            }
            let before = fed(&bytes[..from]);
            let taken = peak(|_| {
                let mut reader = black_box(&before).clone();
                for part in black_box(&parts) {
                    reader.feed(part);
                }
                black_box(&reader);
            });
            let way = format!("{input}, {way}");
            of("pieces part", taken, &way, fed(&bytes));
        }
        let before = fed(&bytes);
        let taken = peak(|_| {
            let mut reader = black_box(&before).clone();
            let _ = black_box(reader.finish());
            black_box(&reader);
        });
        of("pieces finish", taken, input, before.clone());
    }
}

fn main() -> ExitCode {
    let mut count = Count::default();
    for (input, bytes) in worst_for_read() {
        let taken = peak(|_| {
            let _ = black_box(shiulbart::read(black_box(&bytes)));
        });
        count.of("read", taken, MOST_FOR_READ, input, read::proved(&bytes));
    }
    pieces(&mut count);
    let calls: [(&str, Parts, Call); 2] = [
        ("child", child::proved, |bytes, k| {
            let _ = black_box(shiulbart::child(black_box(bytes), k));
        }),
        ("name", name::proved, |bytes, k| {
            let _ = black_box(shiulbart::name(black_box(bytes), k));
        }),
    ];
    for (name, proved, call) in calls {
        for (input, bytes) in worst_for_parts() {
            for k in worst_ks(proved, &bytes) {
                let taken = peak(|_| call(&bytes, k));
                let input = match k {
                    u64::MAX => format!("{input}, k the largest"),
                    _ => format!("{input}, k = {k}"),
                };
                count.of(name, taken, MOST_FOR_ANOTHER, &input, proved(&bytes, k));
            }
        }
    }
    for (input, bytes) in worst_for_sheet() {
        let taken = peak(|_| {
            let _ = black_box(shiulbart::sheet(black_box(&bytes)));
        });
        let outcome = sheet::proved(&bytes);
        count.of("sheet", taken, MOST_FOR_ANOTHER, &input, outcome);
    }
    let of_fill: LentCall = |template, sheet, out| {
        let _ = black_box(shiulbart::fill(black_box(template), sheet, out));
    };
    let of_join: LentCall = |first, second, out| {
        let _ = black_box(shiulbart::join(black_box(first), second, out));
    };
    let of_fill = lent("fill", fill::proved, of_fill, worst_for_fill(), &mut count);
    let of_join = lent("join", join::proved, of_join, worst_for_join(), &mut count);
    single(
        ("write", MOST_FOR_TABLES),
        |table, out| write::proved(table, out),
        |table: &Vec<u8>, out| {
            let _ = black_box(shiulbart::write(black_box(table), out));
        },
        worst_for_write(),
        &mut count,
    );
    single(
        ("write_records", MOST_FOR_RECORDS),
        |table, out| write_records::proved(&table.nodes, &table.rest, out),
        |table: &RecordTable, out| {
            let RecordTable { nodes, rest } = black_box(table);
            let _ = black_box(shiulbart::write_records(nodes, rest, out));
        },
        worst_for_records(),
        &mut count,
    );
    single(
        ("table", MOST_FOR_TABLES),
        |bytes, out| table::proved(bytes, out),
        |bytes: &Vec<u8>, out| {
            let _ = black_box(shiulbart::table(black_box(bytes), out));
        },
        worst_for_table(),
        &mut count,
    );
    count.board("board A, which fills twice", BUFFERS_OF_A, of_fill);
    let most = of_fill.max(of_join);
    count.board("board B, which joins and fills", BUFFERS_OF_B, most);
    println!("{} passed, {} failed", count.passed, count.failed);
    match count.failed {
        0 => ExitCode::SUCCESS,
        _ => ExitCode::FAILURE,
    }
}
