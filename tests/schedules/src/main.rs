//! schedules compare: the answers of the proved simulator and of the second program's are equal, byte by byte, on tests/yard, on every
//! schedule of up to 4 lines over an alphabet, and on random ones. COMPARE_SEED and COMPARE_RUNS set the seed (1) and how many (20,000).
//! schedules bench: schedules a second of both.
//! schedules write FOLDER COUNT: so many random schedules, NAME.in, with the second program's answers, NAME.out.

mod both;
mod generate;
mod random;

use generate::{schedule, Met, CLASSES};
use random::Random;
use std::path::Path;
use std::time::Instant;
use std::{env, fs, process};

/// The lines of which all short schedules are made.
const ALPHABET: [&str; 14] = [
    "i 0 1 5 40",
    "i 1 2 5 7",
    "s 0 1",
    "d 1 0",
    "d 2 0",
    "d 1 1",
    "r 2 0",
    "y 0",
    "k 0 8",
    "k 0 36",
    "g 0 5 1",
    "x 0 5",
    "f 1 5",
    "q",
];
const LONGEST: u32 = 4;

fn number(name: &str, otherwise: u64) -> u64 {
    match env::var(name) {
        Ok(text) => text
            .parse()
            .unwrap_or_else(|_| fail(&format!("{name} is no number: {text}"))),
        Err(_) => otherwise,
    }
}

fn fail(why: &str) -> ! {
    println!("{why}");
    process::exit(1)
}

/// The first line that is answered otherwise.
fn differing(have: &[u8], want: &[u8]) -> String {
    let lines = |text: &[u8]| -> Vec<String> {
        String::from_utf8_lossy(text)
            .lines()
            .map(String::from)
            .collect()
    };
    let (have, want) = (lines(have), lines(want));
    let at = (0..).find(|&k| have.get(k) != want.get(k)).unwrap_or(0);
    let shown = |lines: &[String]| lines.get(at).cloned().unwrap_or("nothing".to_string());
    format!(
        "first at line {}: it answers '{}', the second program '{}'",
        at + 1,
        shown(&have),
        shown(&want)
    )
}

/// Both simulators on a schedule, and the length of its answers; a difference is shown and ends the program, and so are answers longer than
/// the longest.
fn compare(text: &[u8]) -> usize {
    let want = both::second(text);
    let result = both::proved(text).and_then(|have| match have == want {
        true => both::exact(text, &want),
        false => Err(differing(&have, &want)),
    });
    if let Err(why) = result {
        let shown = text.escape_ascii().to_string().replace("\\n", "\n");
        fail(&format!(
            "DIFFERENT on the schedule\n{shown}\nthe proved simulator: {why}"
        ));
    }
    if want.len() > both::LONGEST_ANSWERS {
        let shown = text.escape_ascii().to_string().replace("\\n", "\n");
        fail(&format!(
            "answers of {} bytes, longer than the longest, on the schedule\n{shown}",
            want.len()
        ));
    }
    want.len()
}

/// How many there are, and the length of the longest answers.
fn stored(folder: &Path) -> (u64, usize) {
    let (mut count, mut longest) = (0, 0);
    for entry in
        fs::read_dir(folder).unwrap_or_else(|e| fail(&format!("{}: {e}", folder.display())))
    {
        let path = entry.unwrap_or_else(|e| fail(&e.to_string())).path();
        if path.extension().is_some_and(|e| e == "in") {
            let text =
                fs::read(&path).unwrap_or_else(|e| fail(&format!("{}: {e}", path.display())));
            let due = fs::read(path.with_extension("out"))
                .unwrap_or_else(|e| fail(&format!("{}: {e}", path.display())));
            longest = longest.max(compare(&text));
            if both::second(&text) != due {
                fail(&format!("{} is not answered as stored", path.display()));
            }
            count += 1;
        }
    }
    (count, longest)
}

/// Every word over the alphabet, shortest first.
fn words() -> u64 {
    let mut count = 0;
    for length in 0..=LONGEST {
        for mut word in 0..ALPHABET.len().pow(length) {
            let mut text = Vec::new();
            for _ in 0..length {
                text.extend_from_slice(ALPHABET[word % ALPHABET.len()].as_bytes());
                text.push(b'\n');
                word /= ALPHABET.len();
            }
            compare(&text);
            count += 1;
        }
    }
    count
}

fn compare_all() {
    let began = Instant::now();
    let seconds = |since: Instant| since.elapsed().as_secs_f64();
    let package = Path::new(env!("CARGO_MANIFEST_DIR"));
    let (count, _) = stored(&package.join("../yard"));
    println!("schedules of tests/yard: {count}, answered as stored");
    let (_, longest) = stored(package);
    if longest != both::LONGEST_ANSWERS {
        fail(&format!(
            "longest.in is answered with {longest} bytes, not {}",
            both::LONGEST_ANSWERS
        ));
    }
    println!("the longest answers: {longest} bytes, in an output of just that length and not in one byte less");
    let since = Instant::now();
    let count = words();
    println!(
        "all schedules of up to {LONGEST} lines over {} lines: {count} in {:.1} s",
        ALPHABET.len(),
        seconds(since)
    );
    let (since, seed, runs) = (
        Instant::now(),
        number("COMPARE_SEED", 1),
        number("COMPARE_RUNS", 20_000),
    );
    let (mut random, mut met) = (Random::new(seed), Met::new());
    for _ in 0..runs {
        compare(&schedule(&mut random, &mut met));
    }
    let list: Vec<String> = met
        .iter()
        .map(|(class, count)| format!("{class} {count}"))
        .collect();
    println!(
        "random schedules: seed {seed}, {runs} in {:.1} s: {}",
        seconds(since),
        list.join(", ")
    );
    if let Some(class) = CLASSES.iter().find(|&&class| !met.contains_key(class)) {
        fail(&format!("never met: {class}"));
    }
    println!("all answers equal, {:.1} s", seconds(began));
}

fn bench() {
    let (mut random, mut met) = (Random::new(number("COMPARE_SEED", 1)), Met::new());
    let texts: Vec<Vec<u8>> = (0..2_000)
        .map(|_| schedule(&mut random, &mut met))
        .collect();
    let rate = |run: &dyn Fn(&[u8]) -> usize| {
        let (since, mut bytes, mut rounds) = (Instant::now(), 0, 0);
        while since.elapsed().as_secs() < 2 {
            bytes += texts.iter().map(|text| run(text)).sum::<usize>();
            rounds += 1;
        }
        (
            (rounds * texts.len()) as f64 / since.elapsed().as_secs_f64(),
            bytes / rounds,
        )
    };
    let (proved, have) = rate(&|text| both::proved(text).map_or(0, |answers| answers.len()));
    let (second, want) = rate(&|text| both::second(text).len());
    if have != want {
        fail(&format!(
            "{have} bytes of answers, {want} by the second program"
        ));
    }
    let lines = String::from_utf8_lossy(&texts.concat()).lines().count() / texts.len();
    println!(
        "random schedules of about {lines} lines a second: proved {proved:.0}, second {second:.0}"
    );
}

fn write(folder: &Path, count: u64) {
    let (mut random, mut met) = (Random::new(number("COMPARE_SEED", 1)), Met::new());
    let put = |name: String, bytes: &[u8]| {
        let path = folder.join(name);
        fs::write(&path, bytes).unwrap_or_else(|e| fail(&format!("{}: {e}", path.display())));
    };
    fs::create_dir_all(folder).unwrap_or_else(|e| fail(&format!("{}: {e}", folder.display())));
    for k in 1..=count {
        let text = schedule(&mut random, &mut met);
        put(format!("{k}.in"), &text);
        put(format!("{k}.out"), &both::second(&text));
    }
}

fn main() {
    let words: Vec<String> = env::args().skip(1).collect();
    let words: Vec<&str> = words.iter().map(String::as_str).collect();
    match words[..] {
        ["compare"] => compare_all(),
        ["bench"] => bench(),
        ["write", folder, count] => match count.parse() {
            Ok(count) => write(Path::new(folder), count),
            Err(_) => fail("COUNT is a number"),
        },
        _ => fail("usage: schedules compare | schedules bench | schedules write FOLDER COUNT"),
    }
}
