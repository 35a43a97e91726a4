use super::choose::Probe;
use super::tokens::Tokens;
use super::*;
use crate::names::Names;
use crate::testing::Random;
use std::io::{BufRead, BufReader, Read};

const SMALL: &str = "$timescale 10ns $end $scope module top $end $var wire 1 ! a $end
$var wire 8 \" v [7:0] $end $upscope $end $enddefinitions $end\n";

fn header(text: &str) -> Header {
    header::read(&mut Tokens::of(text.as_bytes())).unwrap()
}

/// Takes samples of `top.a` when it changes, at most `count`.
fn changes_of_a(input: impl BufRead, count: Option<usize>) -> Result<Taken, Wrong> {
    let records = records_of_a(input, Keep::First(count))?;
    Ok(records.into_iter().next().unwrap())
}

/// The records of `top.a` when it changes.
fn records_of_a(input: impl BufRead, keep: Keep) -> Result<Vec<Taken>, Wrong> {
    let mut tokens = Tokens::of(input);
    let header = header::read(&mut tokens)?;
    let (path, probe) = find(&header, "top.a").map_err(Wrong::Whole)?;
    let wire = Wire {
        name: "a".to_string(),
        path,
        probe,
        number: Some(0),
    };
    let plan = Plan {
        scale: header.scale,
        wires: vec![wire],
        constants: vec![],
        moments: Moments::Changes,
        from: None,
        to: None,
        keep,
        unknown: None,
        settled: false,
    };
    let run = take(&plan, &mut Changes::of(&header, &mut tokens))?;
    Ok(run.records(plan.keep))
}

/// Text that is made as it is read: a head, and then one block after the other.
struct Endless<F> {
    ready: Vec<u8>,
    block: F,
    number: u64,
}

impl<F: FnMut(u64) -> String> Read for Endless<F> {
    fn read(&mut self, buffer: &mut [u8]) -> io::Result<usize> {
        if self.ready.is_empty() {
            self.ready = (self.block)(self.number).into_bytes();
            self.number += 1;
        }
        let count = buffer.len().min(self.ready.len());
        buffer[..count].copy_from_slice(&self.ready[..count]);
        self.ready.drain(..count);
        Ok(count)
    }
}

fn endless(head: &str, block: impl FnMut(u64) -> String) -> impl BufRead {
    BufReader::new(Endless {
        ready: head.as_bytes().to_vec(),
        block,
        number: 0,
    })
}

#[test]
fn reading_stops_with_the_last_sample() {
    // a changes with each block, so the third sample is there when the fourth time begins
    let block = |number| format!("#{} {}!\n", number * 2, number % 2);
    let taken = changes_of_a(endless(SMALL, block), Some(3)).unwrap();
    assert_eq!(taken.samples, [0, 1, 0]);
    // a block is two ticks of 10 ns later
    assert_eq!(taken.times, [0, 20_000_000, 40_000_000]);
}

#[test]
fn more_samples_than_a_record_holds_end_an_endless_file() {
    let block = |number| format!("#{number} {}!\n", number % 2);
    let wrong = changes_of_a(endless(SMALL, block), None).unwrap_err();
    // the 64th sample, number 63, is at #63
    assert!(matches!(wrong, Wrong::Whole(words) if words.contains("the next is at 630 ns")));
}

#[test]
fn a_header_without_end_is_refused() {
    let name = "a".repeat(50_000);
    let variables = |_| format!("$var wire 1 ! {name} $end\n");
    let wrong = changes_of_a(endless("", variables), None).unwrap_err();
    assert!(matches!(wrong, Wrong::Line(_, words) if words.contains("too much is declared")));
    let scopes = |_| "$scope module a $end\n".to_string();
    let wrong = changes_of_a(endless("", scopes), None).unwrap_err();
    assert!(matches!(wrong, Wrong::Line(_, words) if words.contains("too deep")));
    let unnamed = |_| "$scope module $end\n".to_string();
    let wrong = changes_of_a(endless("", unnamed), None).unwrap_err();
    assert!(matches!(wrong, Wrong::Line(_, words) if words.contains("too deep")));
    let words = |_| "word ".to_string();
    let wrong = changes_of_a(endless("$var ", words), None).unwrap_err();
    assert!(matches!(wrong, Wrong::Line(1, words) if words.contains("$end is expected")));
}

#[test]
fn scopes_that_come_and_go_are_not_nested() {
    let scopes = "$scope module a $end $upscope $end\n".repeat(100_000);
    let header = header(&format!("{scopes}{SMALL}"));
    let paths: Vec<&str> = header.variables.iter().map(|v| v.path.as_str()).collect();
    assert_eq!(paths, ["top.a", "top.v"]);
}

#[test]
fn a_vector_of_a_mebibyte_is_too_long_and_a_smaller_one_is_read() {
    let vector = |digits| format!("{SMALL}#0 1!\n#1 b{} \"\n#2 0!", "1".repeat(digits));
    let taken = changes_of_a(vector(1_000_000).as_bytes(), None).unwrap();
    assert_eq!(taken.samples, [1, 0]);
    let wrong = changes_of_a(vector(1_100_000).as_bytes(), None).unwrap_err();
    assert!(matches!(wrong, Wrong::Line(4, words) if words.contains("mebibyte")));
}

#[test]
fn random_and_damaged_files_give_an_answer_or_a_message() {
    let random = &mut Random(1);
    let whole =
        format!("{SMALL}#0 $dumpvars x! bz \" $end\n#5 0!\n#7 1! b101 \"\n#9 $dumpoff $end 0!");
    for _ in 0..10_000 {
        let length = random.below(200);
        let noise = random.bytes(length);
        let _ = changes_of_a(&noise[..], None);
        let after = [SMALL.as_bytes(), &noise].concat();
        let _ = changes_of_a(&after[..], None);
        let mut damaged = whole.clone().into_bytes();
        for _ in 0..=random.below(4) {
            let place = random.below(damaged.len());
            damaged[place] = random.pick(b"!\"#$ \n01xzb9:[]-");
        }
        if let Ok(taken) = changes_of_a(&damaged[..], None) {
            assert!(!taken.samples.is_empty() && taken.times.is_sorted());
            assert_eq!(taken.samples.len(), taken.times.len());
            parts(&damaged, &taken.times);
        }
    }
}

/// Of samples that can all be taken, those at these times, each part can: worked out by counting.
fn parts(text: &[u8], all: &[u128]) {
    let times = |keep: Keep| -> Vec<Vec<u128>> {
        let records = records_of_a(text, keep).unwrap();
        records.into_iter().map(|taken| taken.times).collect()
    };
    for count in 1..4 {
        let last = all.len().saturating_sub(count);
        assert_eq!(times(Keep::Last(count)), [&all[last..]]);
        let time = 60_000_000;
        let (before, after): (Vec<u128>, Vec<u128>) = all.iter().partition(|at| **at < time);
        let before = before[before.len().saturating_sub(count / 2)..].iter();
        let after = after.iter().take(count - count / 2);
        let around: Vec<u128> = before.chain(after).copied().collect();
        assert!(around.is_empty() || times(Keep::Around(time, count)) == [around]);
        let overlap = count - 1;
        let windows = times(Keep::Windows(Windows { count, overlap }));
        let expected: Vec<&[u128]> = all.windows(count.min(all.len())).collect();
        assert_eq!(windows, expected);
    }
}

const TREE: &str = r"$scope module top $end
$var wire 8 1 data [7:0] $end
$var wire 1 2 \bus.ack $end
$scope module u[0] $end $var wire 1 3 ack $end $upscope $end
$scope module u[1] $end $var wire 1 4 ack $end $upscope $end
$var wire 1 5 lane [3] $end $var wire 1 6 lane [2] $end
$var wire 8 7 mem[0] [7:0] $end $var wire 8 8 mem[1] [7:0] $end
$var wire 8 1 mirror [0:7] $end
$scope module deep $end $var wire 8 1 data [7:0] $end $upscope $end
$var wire 1 9 twin $end $var wire 1 10 twin $end
$upscope $end $enddefinitions $end";

fn found(path: &str) -> Result<(String, String, u32), String> {
    let (path, Probe { code, place, .. }) = find(&header(TREE), path)?;
    Ok((path, String::from_utf8(code).unwrap(), place))
}

#[test]
fn a_path_finds_the_bit_that_it_names() {
    let cases = [
        ("top.data[3]", "top.data[3]", "1", 3),
        // one signal under two paths, and the first is shown
        ("data[0]", "top.data[0]", "1", 0),
        ("mirror[0]", "top.mirror[0]", "1", 7),
        (r"top.\bus.ack", r"top.\bus.ack", "2", 0),
        ("bus.ack", r"top.\bus.ack", "2", 0),
        ("u[1].ack", "top.u[1].ack", "4", 0),
        // bits that are declared one by one
        ("lane[2]", "top.lane[2]", "6", 0),
        ("mem[1][7]", "top.mem[1][7]", "8", 7),
    ];
    for (path, shown, code, place) in cases {
        assert_eq!(
            found(path),
            Ok((shown.to_string(), code.to_string(), place))
        );
    }
}

#[test]
fn a_path_that_is_not_clear_is_told() {
    let told = |path, part: &str| {
        let words = found(path).unwrap_err();
        assert!(words.contains(part), "{path}: {words}");
    };
    // the ack of the escaped name is no end at a dot
    told("ack", "top.u[0].ack\n  top.u[1].ack");
    assert!(!found("ack").unwrap_err().contains("bus"));
    told("lane", "top.lane[3]\n  top.lane[2]");
    told("lane[4]", "no variable lane[4]; did you mean lane?");
    told("mem[0]", "top.mem[0] has the bits [7:0]");
    told("mem[2]", "did you mean mem[");
    told("twin", "top.twin is declared 2 times");
    told("u[0].akc", "did you mean u[0].ack?");
    told("", "no variable");
    told("[3]", "no variable");
    let many: String = (0..20)
        .map(|n| format!("$scope module m{n} $end $var wire 1 c{n} a $end $upscope $end "))
        .collect();
    let words = find(&header(&format!("{many}$enddefinitions $end")), "a").unwrap_err();
    assert!(words.contains("m7.a\n  and 12 more"), "{words}");
}

#[test]
fn names_give_the_signals_their_numbers() {
    let mut names = Names::none();
    names.declare("ack", 5).unwrap();
    names.declare("strobe", 63).unwrap();
    let wanted_with = |list| wanted(list, Some(&names));
    let numbers = |list| -> Vec<u8> {
        let wanted = wanted_with(list).unwrap();
        wanted.iter().map(|wanted| wanted.number).collect()
    };
    assert_eq!(numbers("strobe=top.s, ack=top.a"), [63, 5]);
    let told = |list| wanted_with(list).unwrap_err().words().to_string();
    assert!(told("akc=top.a").contains("no signal akc: did you mean ack?"));
    assert!(told("ack=top.a,ack=top.b").contains("name ack twice"));
    let plain = wanted("b=x,a=y[3]", None).unwrap();
    assert_eq!((plain[1].number, plain[1].path.as_str()), (1, "y[3]"));
}
